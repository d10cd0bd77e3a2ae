package main

func main() {
	c := time.Tick(1)
	for i := 0; i < 3; i++ {
		<-c
		println(i)
	}
}

package main

func main() {
	done := make(chan bool)
	for i := 0; i < 3; i++ {
		go func(id int) {
			println(id)
			done <- true
		}(i)
	}
	<-done
}

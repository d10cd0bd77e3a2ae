package main

func main() {
	log.Println("started", 3)
	println(1)
}

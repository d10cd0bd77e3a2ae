package main

func prepare() {
	println(1)
}

func main() {
	once := make(chan bool, 1)
	once.Do(prepare)
}

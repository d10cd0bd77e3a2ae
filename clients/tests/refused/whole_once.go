package main

func prepare() {
	println(1)
}

func main() {
	var once sync.Once
	once.Do(prepare)
}

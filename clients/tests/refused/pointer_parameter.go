package main

func set(p *int) {
}

func main() {
}

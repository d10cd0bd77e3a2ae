package main

func main() {
	ok := false
	if !ok {
		log.Fatal("no luck")
	}
}

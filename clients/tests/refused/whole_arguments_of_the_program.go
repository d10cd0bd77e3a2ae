package main

func main() {
	if len(os.Args) > 1 {
		println(1)
	}
}

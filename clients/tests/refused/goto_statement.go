package main

func main() {
	goto end
	end:
		println(1)
}

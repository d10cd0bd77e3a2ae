package main

func main() {
	n := 5
	System.out.println(n)
}

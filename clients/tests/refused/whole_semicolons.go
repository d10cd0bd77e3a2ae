package main

func main() {
	int x = 5;
	println(x);
}

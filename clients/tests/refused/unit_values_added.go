package main

func main() {
	if struct{}{} + struct{}{} {
	}
}

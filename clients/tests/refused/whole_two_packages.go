package main

func main() {
	println(1)
}

package other

func help() {
}

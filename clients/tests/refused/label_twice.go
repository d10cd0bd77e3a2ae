package main

func main() {
	again:
		for {
			break again
		}
	again:
		for {
			break again
		}
}

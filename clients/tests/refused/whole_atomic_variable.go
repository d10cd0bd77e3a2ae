package main

func main() {
	var hits atomic.Int64
	hits.Add(1)
	println(1)
}

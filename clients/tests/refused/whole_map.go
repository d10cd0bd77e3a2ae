package main

func main() {
	ages := map[string]int{"ann": 30}
	println(ages["ann"])
}

package main

import "fmt"

func main() {
	m := map[string]int{}
	done := make(chan bool)
	go func() {
		for i := 0; i < 2; i++ {
			m[fmt.Sprint("k", i)]++
		}
		done <- true
	}()
	<-done
	for k, v := range m {
		if v == 0 {
			continue
		}
		switch k {
		case "k0":
			fmt.Println("zero", k)
		default:
			fmt.Println("other", k)
		}
	}
	x, y := m["k0"], m["k1"]
	fmt.Println(x+y, len(m))
outer:
	for k := range m {
		for i := 0; i < 2; i++ {
			if i == 1 {
				delete(m, k)
				continue outer
			}
		}
	}
	fmt.Println(len(m))
}

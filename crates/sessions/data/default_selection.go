package main

func clock(tick, boom chan bool) {
	for i := 0; i < 2; i++ {
		tick <- true
	}
	boom <- true
}

func main() {
	tick, boom := make(chan bool), make(chan bool)
	go clock(tick, boom)
	for {
		select {
		case <-tick:
			println("tick.")
		case <-boom:
			println("BOOM!")
			return
		default:
			println("    .")
		}
	}
}

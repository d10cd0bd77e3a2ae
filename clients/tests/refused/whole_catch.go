package main

func main() {
	{
		println(1)
	} catch (e) {
		println(2)
	}
}

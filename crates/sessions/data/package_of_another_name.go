package other

func main() {
}

package tools

func main() {
}

package main

func main() {
	alpha, beta, gamma, delta := 1, 2, 3, 4
	alpha*beta + beta*gamma + gamma*delta + delta*alpha
	println(alpha)
}

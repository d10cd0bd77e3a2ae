package main

func main()
package main

public static void main(String[] args) {
	System.out.println(1);
}

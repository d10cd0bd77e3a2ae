// a program
package
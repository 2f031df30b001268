// Four processes, goroutines over channels, whose reports go to standard output: family | recline run. A message goes round them three times,
// and each takes a checkpoint after each receipt. Then b, c and d retire into a.
package main

import "fmt"
import . "recline"

func passOn(process *Process, from, to chan string) {
	for round := 0; round < 3; round++ {
		Must("", process.Receive(<-from))
		fmt.Println(Must(process.Check()))
		to <- Must(process.Send())
	}
}
func end(process *Process, from, to, retirements chan string) {
	passOn(process, from, to)
	line, retirement, err := process.Retire("a")
	fmt.Println(Must(line, err))
	retirements <- retirement
}
func main() {
	a, line, err := Root("a")
	fmt.Println(Must(line, err))
	first, retirements := make(chan string, 1), make(chan string, 3) // one has room for the last message, which nobody receives
	from := first
	for _, name := range []string{"b", "c", "d"} {
		line, start, err := a.Fork(name)
		fmt.Println(Must(line, err))
		to := make(chan string, 1)
		go end(Must(Born(start)), from, to, retirements)
		from = to
	}
	first <- Must(a.Send())
	passOn(a, from, first)
	for range "bcd" {
		fmt.Println(Must(a.Absorb(<-retirements)))
	}
}

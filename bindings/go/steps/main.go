// Takes the steps that standard input says, and writes the line of each that reports; of one that is refused "FAULT n". tests/suites/bindings says
// what the steps are.
package main

import (
	"bufio"
	"errors"
	"fmt"
	"os"
	"recline"
	"strconv"
	"strings"
)

// Of one family: the processes, and the texts that were handed out or kept, by their names.
var processes, texts = map[string]*recline.Process{}, map[string]string{}

// keep keeps a text under this name, and has no line.
func keep(name, text string, err error) (string, error) {
	if err == nil {
		texts[name] = text
	}
	return "", err
}

func number(word string, bits int) uint64 {
	value, err := strconv.ParseUint(word, 10, bits)
	if err != nil {
		panic(err)
	}
	return value
}

// fork makes a child by a call, and has its line.
func fork(child, line, start string, err error) (string, error) {
	if err != nil {
		return "", err
	}
	process, err := recline.Born(start)
	if err == nil {
		processes[child] = process
	}
	return line, err
}

// step gives the line of a step, where it has one.
func step(kind, name, object, more string) (string, error) {
	p := processes[name]
	switch kind {
	case "root":
		processes, texts = map[string]*recline.Process{}, map[string]string{}
		process, line, err := recline.Root(name)
		processes[name] = process
		return line, err
	case "work":
		return "", p.Work()
	case "check":
		return p.Check()
	case "present":
		return p.Present()
	case "send":
		message, err := p.Send()
		return keep(object, message, err)
	case "receive":
		return "", p.Receive(texts[object])
	case "fork":
		if more == "" {
			line, start, err := p.Fork(object)
			return fork(object, line, start, err)
		}
		line, start, err := p.ForkSmall(object, uint8(number(more, 8)))
		return fork(object, line, start, err)
	case "retire":
		line, retirement, err := p.Retire(object)
		_, _ = keep(name, retirement, err)
		return line, err
	case "absorb":
		return p.Absorb(texts[object])
	case "absorb_kept":
		return p.AbsorbKept(texts[object])
	case "keep":
		return keep(object, p.State, nil)
	case "again":
		message, err := p.Again(texts[object])
		return keep(object, message, err)
	case "return_to":
		return "", p.ReturnTo(texts[object], uint32(number(more, 32)))
	case "return":
		processes[name] = &recline.Process{State: texts[object]}
		return "", processes[name].Returned(uint32(number(more, 32)))
	}
	panic("no step: " + kind)
}

func main() {
	asked, told := bufio.NewScanner(os.Stdin), bufio.NewWriter(os.Stdout)
	defer told.Flush()
	for asked.Scan() {
		words := append(strings.Fields(asked.Text()), "", "")
		line, err := step(words[0], words[1], words[2], words[3])
		var fault recline.Fault
		if errors.As(err, &fault) {
			line = fmt.Sprintf("FAULT %d", int(fault))
		}
		if line != "" {
			fmt.Fprintln(told, line)
		}
	}
}

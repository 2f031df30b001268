package recline

import (
	"fmt"
	"reflect"
	"strings"
	"sync"
	"testing"
)

// told gives the text of a call, or the fault.
func told(text string, err error) string {
	if err != nil {
		return err.Error()
	}
	return text
}

// fault gives the fault of a call without a text.
func fault(err error) string {
	return told("", err)
}

// joined gives the line of a call, and what is handed over, or the fault.
func joined(line, handed string, err error) string {
	return told(line+"; "+handed, err)
}

// begun gives a process that begins, or the fault.
func begun(process *Process, line string, err error) string {
	if err != nil {
		return err.Error()
	}
	return process.State + "; " + line
}

// born gives the child of a start.
func born(t *testing.T, start string) *Process {
	child, err := Born(start)
	if err != nil {
		t.Fatal(err)
	}
	return child
}

func expect(t *testing.T, text, wanted string) {
	t.Helper()
	if text != wanted {
		t.Errorf("%q, and not %q", text, wanted)
	}
}

// What stands in docs/STAMPING.md: two processes, two messages, and an end.
func TestExample(t *testing.T) {
	a, begin, err := Root("a")
	expect(t, told(begin, err), "BEGIN a")
	line, start, err := a.Fork("b")
	expect(t, told(line, err), "FORK a 1 1;1 (1,0) b (0,1)")
	b := born(t, start)
	expect(t, told(a.Check()), "CHECK a 2 (1,0);(1,1,0)")
	kept := a.State
	message, _ := b.Send()
	expect(t, fault(a.Receive(message)), "")
	expect(t, told(a.Check()), "CHECK a 3 (1,0);(2,2,0)")
	sent, _ := a.Send()
	expect(t, fault(b.Receive(sent)), "")
	expect(t, told(b.Check()), "CHECK b 1 (0,1);(5,0,1)")
	line, retirement, err := b.Retire("a")
	expect(t, joined(line, retirement, err), "RETIRE b 2 (0,1);(5,0,2) a; retirement b 0 a (0,1);(5,0,2)")
	expect(t, told(a.Absorb(retirement)), "ABSORB a 4 1;(6,0,1) b")
	live := *a
	expect(t, told(b.Check()), NoState.Error())
	expect(t, told(a.Absorb(retirement)), Overlap.Error())
	expect(t, fault(a.ReturnTo("process b 0 0 (0,1);1", 1)), OtherProcess.Error())
	expect(t, a.State, live.State)
	expect(t, fault(a.ReturnTo(kept, 1)), "")
	expect(t, a.State, "process a 1 2 (1,0);(1,1,0)")
	expect(t, fault(a.ReturnTo(kept, 1)), Older.Error())
	crashed := Process{kept}
	expect(t, fault(crashed.Returned(1)), "")
	expect(t, crashed.State, a.State)
	expect(t, told(a.Again("message 0 (1,1,0)")), "message 1 (1,1,0)")
	expect(t, told(a.Again(sent)), NotKnown.Error())
	expect(t, a.State, crashed.State)
	expect(t, fault(a.Work()), "")
	expect(t, told(a.Present()), "PRESENT@1 a 3 (1,0);(1,3,0)")
	expect(t, told(a.Absorb(retirement)), Older.Error())
	expect(t, told(a.AbsorbKept(retirement)), "ABSORB@1 a 4 1;(5,0,2) b")
}

func TestFaultsChangeNothing(t *testing.T) {
	expect(t, begun(Root("A")), NoName.Error())
	expect(t, begun(Root("")), NoName.Error())
	none := Process{"process a"}
	expect(t, told(none.Check()), NoState.Error())
	_, err := Born("process a 0 0 1;0")
	expect(t, fault(err), NoText.Error())
	a := Process{"process a 0 0 (1,0);1"}
	expect(t, joined(a.Fork("a")), NameTaken.Error())
	expect(t, joined(a.ForkSmall("b", 1)), TooDeep.Error())
	expect(t, joined(a.Retire("a")), SelfTarget.Error())
	expect(t, fault(a.Receive("message 1 9")), Newer.Error())
	expect(t, told(a.Again("message 1 0")), Newer.Error())
	expect(t, told(a.Again("message 0")), NoText.Error())
	expect(t, told(a.Absorb("retirement b 0 c (0,1);2")), NotWaiting.Error())
	expect(t, told(a.Absorb("retirement a 0 a (0,1);2")), NotWaiting.Error())
	expect(t, fault(a.Returned(0)), Older.Error())
	expect(t, fault(a.ReturnTo("message 0 1", 1)), NoText.Error())
	expect(t, fault(a.ReturnTo("process a 0 0 1;0", 0)), Older.Error())
	expect(t, fault(a.ReturnTo("process a 1 0 1;0", 1)), Older.Error())
	expect(t, fault(a.ReturnTo("process b 0 0 1;0", 0)), Older.Error())
	expect(t, fault(a.ReturnTo("process b 0 0 1;0", 1)), OtherProcess.Error())
	expect(t, a.State, "process a 0 0 (1,0);1")
	if Memory != -1 || NotKnown != -16 {
		t.Error("the numbers are not those of recline.h")
	}
	expect(t, Memory.Error(), "recline: memory is wanting (-1)")
	expect(t, Older.Error(), "recline: an older epoch (-8)")
	expect(t, NotKnown.Error(), "recline: not known to the process (-16)")
	expect(t, Fault(7).Error(), "recline: fault 7")
}

// More than there is room for at first.
func TestLongTexts(t *testing.T) {
	a, _, err := Root("a")
	if err != nil {
		t.Fatal(err)
	}
	for k := 0; k < 255; k++ {
		_, start, _ := a.ForkSmall(fmt.Sprintf("c%d", k), 8)
		child := born(t, start)
		for i := 0; i <= k%9; i++ {
			child.Work()
		}
		message, _ := child.Send()
		expect(t, fault(a.Receive(message)), "")
	}
	if len(a.State) <= 1024 {
		t.Errorf("the state has %d bytes alone", len(a.State))
	}
	message, err := a.Send()
	expect(t, told(message, err), "message 0 "+strings.SplitN(a.State, ";", 2)[1])
}

// Calls from many goroutines at once give what they give one by one.
func TestThreads(t *testing.T) {
	run := func() (lines []string) {
		a, line, _ := Root("a")
		lines = append(lines, line)
		for k := 0; k < 20; k++ {
			line, start, err := a.Fork(fmt.Sprintf("b%d", k))
			lines = append(lines, joined(line, start, err))
		}
		return lines
	}
	var group sync.WaitGroup
	given := make([][]string, 8)
	for k := range given {
		k := k
		group.Add(1)
		go func() {
			defer group.Done()
			given[k] = run()
		}()
	}
	group.Wait()
	wanted := run()
	for _, lines := range given {
		if !reflect.DeepEqual(lines, wanted) {
			t.Errorf("%q, and not %q", lines, wanted)
		}
	}
}

// Writes a trace of this program, which dreplay reads: go run writer.go run.csv
package main

import (
	"bufio"
	"fmt"
	"log"
	"os"
	"strconv"
	"sync"
	"time"
)

const header = "number,cpu,thread,pid,execname,time,provider,module,function,name," +
	"arg0,arg1,arg2,arg3,arg4,arg5,arg6,arg7,arg8,arg9"

// Trace is a trace that is written, by several goroutines.
type Trace struct {
	lock   sync.Mutex
	file   *bufio.Writer
	number uint64
}

// Fire writes a firing of app:module:function:name with one argument. A goroutine has no number
// that it can ask for, so each is given its own. Names have no comma and no quote.
func (t *Trace) Fire(thread int, module, function, name string, arg0 int64) {
	t.lock.Lock() // numbers rise in the file, and times with them
	defer t.lock.Unlock()
	t.number++
	fmt.Fprintf(t.file, "%d,0,%d,%d,shop,%d,app,%s,%s,%s,%d,,,,,,,,,\n",
		t.number, thread, os.Getpid(), time.Now().UnixNano(), module, function, name, arg0)
}

func work(trace *Trace, thread int, calls int64) {
	for call := int64(0); call < calls; call++ {
		trace.Fire(thread, "orders", "submit", "entry", call%512)
		result := int64(0)
		if call%100 == 0 {
			result = -1
		}
		trace.Fire(thread, "orders", "submit", "return", result)
	}
}

func main() {
	calls := int64(1000)
	if len(os.Args) > 2 {
		calls, _ = strconv.ParseInt(os.Args[2], 10, 64)
	}
	file, err := os.Create(os.Args[1])
	if err != nil {
		log.Fatal(err)
	}
	trace := &Trace{file: bufio.NewWriter(file)}
	fmt.Fprintln(trace.file, header)
	var workers sync.WaitGroup
	for thread := 1; thread <= 4; thread++ {
		workers.Add(1)
		go func(thread int) { defer workers.Done(); work(trace, thread, calls) }(thread)
	}
	workers.Wait()
	if err := trace.file.Flush(); err != nil {
		log.Fatal(err)
	}
}

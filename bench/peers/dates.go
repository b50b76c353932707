// dates date|iso DAY STEP TIMES: the date or the ISO date of a day number, of the one so many days later and so on, so many times, by Go's
// time package; the last answer is printed.
package main

import (
	"fmt"
	"os"
	"strconv"
	"time"
)

func number(word string) int64 {
	n, err := strconv.ParseInt(word, 10, 64)
	if err != nil {
		fmt.Fprintln(os.Stderr, err)
		os.Exit(2)
	}
	return n
}

func main() {
	if len(os.Args) != 5 {
		os.Exit(2)
	}
	day, step, times := number(os.Args[2]), number(os.Args[3]), number(os.Args[4])
	switch os.Args[1] {
	case "date":
		var year, inMonth int
		var month time.Month
		for k := int64(0); k < times; k++ {
			year, month, inMonth = time.Unix(day*86400, 0).UTC().Date()
			day += step
		}
		fmt.Printf("%04d-%02d-%02d\n", year, month, inMonth)
	case "iso":
		var year, week int
		var weekday time.Weekday
		for k := int64(0); k < times; k++ {
			t := time.Unix(day*86400, 0).UTC()
			year, week = t.ISOWeek()
			weekday = t.Weekday()
			day += step
		}
		fmt.Printf("%04d-W%02d-%d\n", year, week, (weekday+6)%7+1)
	default:
		os.Exit(2)
	}
}

// peer SHEET FROM TIMES: the next dose of a sheet after an instant, by Go's rrule and cron packages, so many times over, load included; the
// last answer is printed, `none` where there is none. FROM may be `load`: then the sheet is loaded alone.
//
// What is counted as load is the reading of the rule and cron strings and of the zone, which is a TZif text with the sheet's transitions.
// Cutting the sheet into these strings is not: it is done once, whatever TIMES is.
package main

import (
	"bytes"
	"encoding/binary"
	"fmt"
	"os"
	"strconv"
	"strings"
	"time"

	"github.com/robfig/cron"
	"github.com/teambition/rrule-go"
)

// 2000-01-01 00:00 UTC, in seconds of Unix
const epoch = 946684800

const sheetTime = "20060102T1504"

type sheet struct {
	zone            []byte
	crons           []string
	rules           [][2]string // start and parts
	extra, excepted []string
}

type plan struct {
	crons           []cron.Schedule
	rules           []*rrule.RRule
	extra, excepted []time.Time
}

func must(err error) {
	if err != nil {
		fmt.Fprintln(os.Stderr, err)
		os.Exit(2)
	}
}

func read(name string) sheet {
	text, err := os.ReadFile(name)
	must(err)
	var s sheet
	var at []int64
	var offsets []int32
	for _, line := range strings.Split(strings.TrimSpace(string(text)), "\n") {
		tag, rest, _ := strings.Cut(line, " ")
		first, second, _ := strings.Cut(rest, " ")
		switch tag {
		case "Z":
			offsets = append(offsets, seconds(first))
		case "T":
			t, err := time.ParseInLocation(sheetTime, first, time.UTC)
			must(err)
			at, offsets = append(at, t.Unix()), append(offsets, seconds(second))
		case "C":
			s.crons = append(s.crons, schedules(rest)...)
		case "R":
			s.rules = append(s.rules, [2]string{first, withSeconds(second)})
		case "D":
			s.extra = append(s.extra, first)
		case "X":
			s.excepted = append(s.excepted, first)
		}
	}
	s.zone = tzif(at, offsets)
	return s
}

func seconds(offset string) int32 {
	hours, err := strconv.Atoi(offset[:3])
	must(err)
	minutes, err := strconv.Atoi(offset[:1] + offset[3:])
	must(err)
	return int32(hours*3600 + minutes*60)
}

// The package lets the month restrict the day of week too, so a line that has both is two schedules.
func schedules(line string) []string {
	f := strings.Fields(line)
	if f[3] == "*" || f[4] == "*" {
		return []string{line}
	}
	return []string{strings.Join([]string{f[0], f[1], f[2], f[3], "*"}, " "), strings.Join([]string{f[0], f[1], "*", "*", f[4]}, " ")}
}

// The package reads times with seconds.
func withSeconds(parts string) string {
	all := strings.Split(parts, ";")
	for i, part := range all {
		if strings.HasPrefix(part, "UNTIL=") {
			all[i] = part + "00"
		}
	}
	return strings.Join(all, ";")
}

// A zone file of version 2: an empty part of version 1, then the transitions, a type for each offset.
func tzif(at []int64, offsets []int32) []byte {
	var out bytes.Buffer
	header := func(times, types, letters int) {
		out.WriteString("TZif2" + strings.Repeat("\x00", 15))
		for _, n := range []int{0, 0, 0, times, types, letters} {
			binary.Write(&out, binary.BigEndian, uint32(n))
		}
	}
	header(0, 0, 0)
	header(len(at), len(offsets), 2)
	for _, t := range at {
		binary.Write(&out, binary.BigEndian, t)
	}
	for i := range at {
		out.WriteByte(byte(i + 1))
	}
	for _, offset := range offsets {
		binary.Write(&out, binary.BigEndian, offset)
		out.Write([]byte{0, 0})
	}
	out.WriteString("A\x00\n\n")
	return out.Bytes()
}

func load(s *sheet) plan {
	here, err := time.LoadLocationFromTZData("here", s.zone)
	must(err)
	var p plan
	for _, text := range s.crons {
		schedule, err := cron.ParseStandard(text)
		must(err)
		schedule.(*cron.SpecSchedule).Location = here
		p.crons = append(p.crons, schedule)
	}
	for _, rule := range s.rules {
		option, err := rrule.StrToROptionInLocation(rule[1], here)
		must(err)
		option.Dtstart = localTime(rule[0], here)
		made, err := rrule.NewRRule(*option)
		must(err)
		p.rules = append(p.rules, made)
	}
	for _, text := range s.extra {
		p.extra = append(p.extra, localTime(text, here))
	}
	for _, text := range s.excepted {
		p.excepted = append(p.excepted, localTime(text, here))
	}
	return p
}

func localTime(text string, here *time.Location) time.Time {
	t, err := time.ParseInLocation(sheetTime, text, here)
	must(err)
	return t
}

// The least dose after the instant, the zero time for none.
func (p *plan) next(from time.Time) time.Time {
	var best time.Time
	consider := func(t time.Time) {
		if t.After(from) && (best.IsZero() || t.Before(best)) {
			best = t
		}
	}
	for _, c := range p.crons {
		consider(c.Next(from))
	}
	for _, r := range p.rules {
		consider(r.After(from, false))
	}
	for _, t := range p.extra {
		consider(t)
	}
	for _, t := range p.excepted {
		if t.Equal(best) {
			return p.next(best)
		}
	}
	return best
}

func main() {
	if len(os.Args) != 4 {
		must(fmt.Errorf("usage: peer SHEET FROM TIMES"))
	}
	s := read(os.Args[1])
	times, err := strconv.Atoi(os.Args[3])
	must(err)
	answer := "none"
	for k := 0; k < times; k++ {
		p := load(&s)
		if os.Args[2] == "load" {
			continue
		}
		minutes, err := strconv.ParseInt(os.Args[2], 10, 64)
		must(err)
		if t := p.next(time.Unix(epoch+60*minutes, 0)); !t.IsZero() {
			answer = strconv.FormatInt((t.Unix()-epoch)/60, 10)
		}
	}
	fmt.Println(answer)
}

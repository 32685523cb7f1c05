package nazhuvem

import (
	"bufio"
	"bytes"
	"encoding/hex"
	"encoding/json"
	"fmt"
	"io"
	"os"
	"os/exec"
	"strconv"
	"strings"
)

// Report is what the program's own client reports.
type Report struct {
	Event    uint64
	Revision uint64
	Objects  uint64
	Counts   map[string]uint64
}

// Written is what was written on a connection.
type Written struct {
	Connection uint64
	Bytes      []byte
}

// Answer is what one line of a script brought.
type Answer struct {
	// Event is the number of the event: how many were read so far.
	Event uint64
	// Opened is the connection that the line opened by itself, or 0.
	Opened uint64
	// Out has what was written, by connection.
	Out []Written
	// Ended has the connections that ended.
	Ended []uint64
	// Report is the client's, or nil.
	Report *Report
	// Refused says why the event changed nothing.
	Refused string
	// Bad says why the line is no event.
	Bad string
}

// part is a line of an answer.
type part struct {
	Opened  uint64
	Out     []json.RawMessage
	Bytes   []json.RawMessage
	Ended   uint64
	Report  *Report
	Done    *uint64
	Refused string
	Bad     string
}

// pipe is a running ssa-pipe. It ends by close.
type pipe struct {
	types *typesFile
	// words are those of its command line, but for the types.
	words     []string
	temporary string
	command   *exec.Cmd
	to        io.WriteCloser
	from      *bufio.Reader
	said      bytes.Buffer
}

// startPipe starts the program without waiting until it answers, as begin does.
func startPipe(s settings) (*pipe, error) {
	program, err := Find("ssa-pipe")
	if err != nil {
		return nil, err
	}
	types, err := typesOf(s.paths)
	if err != nil {
		return nil, err
	}
	path, isTemporary, err := types.written()
	if err != nil {
		return nil, err
	}
	p := &pipe{types: types, words: s.commandLine(types.first)}
	if isTemporary {
		p.temporary = path
	}
	p.command = exec.Command(itself(program), append([]string{"--types", path}, p.words...)...)
	p.command.Env = environment()
	p.command.Stderr = &p.said
	if p.to, err = p.command.StdinPipe(); err != nil {
		return nil, err
	}
	from, err := p.command.StdoutPipe()
	if err != nil {
		return nil, err
	}
	p.from = bufio.NewReaderSize(from, 1<<16)
	if err := p.command.Start(); err != nil {
		return nil, err
	}
	return p, nil
}

// commandLine are the words of a command line, but for the types.
func (s settings) commandLine(first typeNames) []string {
	var words []string
	if !s.isPlain {
		words = append(words, "--discovery")
	}
	if !s.hasType && first != (typeNames{}) {
		words = append(words, "--type", first.String())
	}
	return append(words, s.words...)
}

// begin waits until it answers, or tells why it doesn't: no line is {}.
func (p *pipe) begin() error {
	_, err := p.ask("{}")
	p.forget()
	return err
}

// forget removes a types file of its own, which the program has read.
func (p *pipe) forget() {
	if p.temporary != "" {
		os.Remove(p.temporary)
		p.temporary = ""
	}
}

// replay is the command that plays a script of it again.
func (p *pipe) replay(script string) (string, error) {
	types, err := p.types.kept(script)
	words := append([]string{"ssa-replay", "--types", types}, append(p.words, "--script", script)...)
	for at, word := range words {
		words[at] = quoted(word)
	}
	return strings.Join(words, " "), err
}

// quoted is a word as a shell takes it.
func quoted(word string) string {
	const plain = "abcdefghijklmnopqrstuvwxyzABCDEFGHIJKLMNOPQRSTUVWXYZ0123456789_-./=:,@%+"
	if word != "" && strings.Trim(word, plain) == "" {
		return word
	}
	return "'" + strings.ReplaceAll(word, "'", `'"'"'`) + "'"
}

// ask sends the lines at once and reads the answer to each.
func (p *pipe) ask(lines ...string) ([]Answer, error) {
	if _, err := io.WriteString(p.to, strings.Join(lines, "\n")+"\n"); err != nil {
		return nil, p.failed(err)
	}
	answers := make([]Answer, len(lines))
	for at := range answers {
		for isDone := false; !isDone; {
			line, err := p.from.ReadBytes('\n')
			if err != nil {
				return nil, p.failed(err)
			}
			if isDone, err = answers[at].read(line); err != nil {
				return nil, fmt.Errorf("ssa-pipe printed %q: %w", line, err)
			}
		}
	}
	return answers, nil
}

// read adds what a line says, and tells whether it is the last of the answer. Most lines are
// of two forms.
func (a *Answer) read(line []byte) (bool, error) {
	line = bytes.TrimSuffix(line, []byte("\n"))
	if number, isPlain := numberIn(line, `{"done":`, "}"); isPlain {
		a.Event = number
		return true, nil
	}
	if head, text, isPair := bytes.Cut(line, []byte(",")); isPair && bytes.HasSuffix(text, []byte("]}")) {
		if number, isOut := numberIn(head, `{"out":[`, ""); isOut {
			var written string
			err := json.Unmarshal(text[:len(text)-len("]}")], &written)
			a.Out = append(a.Out, Written{number, []byte(written)})
			return false, err
		}
	}
	var it part
	if err := json.Unmarshal(line, &it); err != nil {
		return false, err
	}
	switch {
	case it.Done != nil:
		a.Event, a.Refused, a.Bad = *it.Done, it.Refused, it.Bad
		return true, nil
	case it.Out != nil:
		return false, a.written(it.Out, false)
	case it.Bytes != nil:
		return false, a.written(it.Bytes, true)
	case it.Report != nil:
		a.Report = it.Report
	case it.Ended != 0:
		a.Ended = append(a.Ended, it.Ended)
	case it.Opened != 0:
		a.Opened = it.Opened
	}
	return false, nil
}

// numberIn is the number between these two, where nothing else is.
func numberIn(line []byte, before, behind string) (uint64, bool) {
	text := string(line)
	if !strings.HasPrefix(text, before) || !strings.HasSuffix(text, behind) {
		return 0, false
	}
	number, err := strconv.ParseUint(text[len(before):len(text)-len(behind)], 10, 64)
	return number, err == nil
}

func (a *Answer) written(pair []json.RawMessage, isHex bool) error {
	var one Written
	var text string
	if len(pair) != 2 {
		return fmt.Errorf("no pair")
	}
	if err := json.Unmarshal(pair[0], &one.Connection); err != nil {
		return err
	}
	if err := json.Unmarshal(pair[1], &text); err != nil {
		return err
	}
	one.Bytes = []byte(text)
	if isHex {
		var err error
		if one.Bytes, err = hex.DecodeString(text); err != nil {
			return err
		}
	}
	a.Out = append(a.Out, one)
	return nil
}

// failed is the error of a program that has ended.
func (p *pipe) failed(err error) error {
	p.close()
	if said := strings.TrimSpace(p.said.String()); said != "" {
		return fmt.Errorf("ssa-pipe: %s", said)
	}
	return fmt.Errorf("ssa-pipe: %w", err)
}

func (p *pipe) close() {
	p.to.Close()
	_ = p.command.Wait()
	p.forget()
}

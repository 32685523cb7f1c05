package nazhuvem

import (
	"bufio"
	"bytes"
	"encoding/hex"
	"encoding/json"
	"fmt"
	"io"
	"net/http"
	"strconv"
	"strings"
	"unicode/utf8"
)

// errCut is what a read gives of a connection that was cut, as one of a socket does.
var errCut = io.ErrUnexpectedEOF

// connection is one of a server's. Its fields are guarded by the server's lock; it is the body
// of its reply.
type connection struct {
	server *server
	number uint64
	// run is the work of the controller that opened it, if one did.
	run     *run
	waiting []byte
	ended   bool
	// failed is why nothing more can be read, if that isn't the end.
	failed error
	// isRead tells that a reader waits for bytes, or has had no line yet.
	isRead bool
	// isClosed tells that a reader has closed the body.
	isClosed bool
	// whole is its reply, where that ended with the request.
	whole []byte
	// isWatch tells that its reply goes on after the request.
	isWatch bool
	// written and text are the lines of a watch, as far as they came.
	written chunks
	text    []byte
	// over is closed when it is over.
	over chan struct{}
}

func (c *connection) isOver() bool {
	return c.ended || c.failed != nil
}

// Read waits until there are bytes, or nothing more comes.
func (c *connection) Read(room []byte) (int, error) {
	c.server.lock.Lock()
	defer c.server.lock.Unlock()
	for len(c.waiting) == 0 && !c.isOver() {
		c.isRead = true
		c.server.moved.Wait()
	}
	c.isRead = false
	c.server.stirs++
	if len(c.waiting) > 0 {
		n := copy(room, c.waiting)
		c.waiting = c.waiting[n:]
		return n, nil
	}
	if c.failed != nil {
		return 0, c.failed
	}
	return 0, io.EOF
}

// Close tells the hub that the peer has gone.
func (c *connection) Close() error {
	c.server.lock.Lock()
	defer c.server.lock.Unlock()
	c.isClosed = true
	return c.server.leave(c, errCut)
}

// body is the reply's body, which closes its connection.
type body struct {
	io.Reader
	io.Closer
}

// response reads the reply's head; the rest is read as it comes.
func (c *connection) response(request *http.Request) (*http.Response, error) {
	response, err := http.ReadResponse(bufio.NewReader(c), request)
	if err != nil {
		return nil, err
	}
	c.server.lock.Lock()
	defer c.server.lock.Unlock()
	c.isRead = true
	response.Body = body{response.Body, c}
	return response, nil
}

// requestBytes are those that a client sends for a request, as HTTP/1.1 has them.
func requestBytes(request *http.Request) ([]byte, []byte, error) {
	var content []byte
	if request.Body != nil {
		var err error
		content, err = io.ReadAll(request.Body)
		request.Body.Close()
		if err != nil {
			return nil, nil, err
		}
	}
	var text bytes.Buffer
	fmt.Fprintf(&text, "%s %s HTTP/1.1\r\nHost: hub\r\n", request.Method, request.URL.RequestURI())
	header := request.Header.Clone()
	header.Del("Content-Length")
	header.Del("Accept-Encoding")
	if err := header.Write(&text); err != nil {
		return nil, nil, err
	}
	if len(content) > 0 || isWrite(request.Method) && request.Method != http.MethodDelete {
		fmt.Fprintf(&text, "Content-Length: %d\r\n", len(content))
	}
	text.WriteString("\r\n")
	text.Write(content)
	return text.Bytes(), content, nil
}

// inLine is the script's line by which these bytes come on a connection.
func inLine(number uint64, data []byte) string {
	if !utf8.Valid(data) {
		return fmt.Sprintf(`{"bytes":[%d,"%s"]}`, number, hex.EncodeToString(data))
	}
	text, err := json.Marshal(string(data))
	if err != nil {
		panic(err) // a text is always JSON
	}
	return fmt.Sprintf(`{"in":[%d,%s]}`, number, text)
}

// linesOf are the lines of a watch that its next bytes complete.
func (c *connection) linesOf(data []byte) [][]byte {
	lines := bytes.Split(append(c.text, c.written.feed(data)...), []byte("\n"))
	last := len(lines) - 1
	c.text = lines[last]
	return lines[:last]
}

// chunks reads the pieces of a chunked body, in whatever pieces they come.
type chunks struct{ rest []byte }

// feed is the contents of the chunks that these bytes complete.
func (c *chunks) feed(data []byte) []byte {
	c.rest = append(c.rest, data...)
	var found []byte
	for {
		head, behind, isWhole := bytes.Cut(c.rest, []byte("\r\n"))
		if !isWhole {
			return found
		}
		length, err := strconv.ParseUint(string(head), 16, 32)
		if err != nil || uint64(len(behind)) < length+2 {
			return found
		}
		found = append(found, behind[:length]...)
		c.rest = behind[length+2:]
	}
}

func isWrite(method string) bool {
	switch method {
	case http.MethodPost, http.MethodPut, http.MethodPatch, http.MethodDelete:
		return true
	}
	return false
}

// objectWritten is the path of the object that a successful write left or, of a DELETE,
// took away; "" where it is none of these.
func objectWritten(method, path string, content []byte) string {
	parts := strings.Split(path, "/")
	switch {
	case !isWrite(method) || len(parts) < 7 || parts[4] != "namespaces":
		return ""
	case method == http.MethodPost && len(parts) == 7:
		var object struct{ Metadata struct{ Name string } }
		if json.Unmarshal(content, &object) != nil || object.Metadata.Name == "" {
			return ""
		}
		return path + "/" + object.Metadata.Name
	case method != http.MethodPost && len(parts) == 8:
		return path
	}
	return ""
}

package nazhuvem

import (
	"bytes"
	"encoding/json"
	"fmt"
	"io"
	"net/http"
	"net/url"
	"strings"
)

// Request is a request of the test, or of a controller.
type Request struct {
	Method, Path string
	// Query has its parameters.
	Query map[string]string
	// Manager is who applies or writes, "" for nobody; Force is that of an apply.
	Manager string
	Force   bool
	// Body is none where it is nil; a string is sent as it is, any other as JSON.
	Body any
	// Media is the body's media type; without it that of an apply for PATCH, else that of
	// JSON.
	Media string
	// MayFail says that a refusal is no failure of the test.
	MayFail bool
}

// target is the path with the parameters behind it.
func (r Request) target() string {
	query := url.Values{}
	for name, value := range r.Query {
		query.Set(name, value)
	}
	if r.Manager != "" {
		query.Set("fieldManager", r.Manager)
	}
	if r.Force {
		query.Set("force", "true")
	}
	switch {
	case len(query) == 0:
		return r.Path
	case strings.Contains(r.Path, "?"):
		return r.Path + "&" + query.Encode()
	}
	return r.Path + "?" + query.Encode()
}

// message is the request as one of net/http.
func (r Request) message() (*http.Request, error) {
	if !strings.HasPrefix(r.Path, "/") {
		return nil, fmt.Errorf("the path %q doesn't begin with /", r.Path)
	}
	var content io.Reader
	if text, isText := r.Body.(string); isText {
		content = strings.NewReader(text)
	} else if r.Body != nil {
		text, err := json.Marshal(r.Body)
		if err != nil {
			return nil, err
		}
		content = bytes.NewReader(text)
	}
	message, err := http.NewRequest(r.Method, "http://hub"+r.target(), content)
	if err != nil {
		return nil, err
	}
	switch {
	case r.Media != "":
		message.Header.Set("Content-Type", r.Media)
	case r.Body != nil && r.Method == http.MethodPatch:
		message.Header.Set("Content-Type", "application/apply-patch+yaml")
	case r.Body != nil:
		message.Header.Set("Content-Type", "application/json")
	}
	return message, nil
}

// Send sends the request over a transport, and returns the reply's status and body.
func (r Request) Send(transport http.RoundTripper) (int, []byte, error) {
	message, err := r.message()
	if err != nil {
		return 0, nil, err
	}
	response, err := transport.RoundTrip(message)
	if err != nil {
		return 0, nil, err
	}
	defer response.Body.Close()
	if response.StatusCode == http.StatusOK && response.ContentLength < 0 {
		return 0, nil, fmt.Errorf("%s is a watch, which doesn't end: an http.Client of this transport reads it", r.target())
	}
	reply, err := io.ReadAll(response.Body)
	return response.StatusCode, reply, err
}

// Send sends a request over a transport, as Request.Send does.
func Send(transport http.RoundTripper, method, path string, body any) (int, []byte, error) {
	return Request{Method: method, Path: path, Body: body}.Send(transport)
}

// Do sends a request of the test, and returns the reply's status and body. A refusal ends
// the test as Fatalf does, unless MayFail says that the reply is wanted.
func (h *Hub) Do(request Request) (int, []byte) {
	h.t.Helper()
	status, reply, err := request.Send(h)
	h.must(err)
	if !request.MayFail && h.isFailure(status, reply) {
		h.Fatalf("%d %s, of %s %s", status, messageOf(reply), request.Method, request.target())
	}
	return status, reply
}

// Request sends a request and returns its status and body. A body that is nil is none, one
// that is a string is sent as it is, any other as JSON. PATCH is an apply. A refusal ends
// the test.
func (h *Hub) Request(method, path string, body any) (int, []byte) {
	h.t.Helper()
	return h.Do(Request{Method: method, Path: path, Body: body})
}

// TryRequest is Request for a reply that may be a refusal.
func (h *Hub) TryRequest(method, path string, body any) (int, []byte) {
	h.t.Helper()
	return h.Do(Request{Method: method, Path: path, Body: body, MayFail: true})
}

// Apply applies a body to the object of the path, by a manager, with or without force. A
// refusal ends the test.
func (h *Hub) Apply(manager, path string, body any, force bool) (int, []byte) {
	h.t.Helper()
	return h.Do(Request{Method: http.MethodPatch, Path: path, Manager: manager, Force: force, Body: body})
}

// TryApply is Apply for a reply that may be a refusal.
func (h *Hub) TryApply(manager, path string, body any, force bool) (int, []byte) {
	h.t.Helper()
	return h.Do(Request{Method: http.MethodPatch, Path: path, Manager: manager, Force: force, Body: body, MayFail: true})
}

// Get reads the object of the path into a pointer, as json.Unmarshal does, and tells whether
// there is one.
func (h *Hub) Get(path string, into any) bool {
	h.t.Helper()
	status, reply := h.Do(Request{Method: http.MethodGet, Path: path, MayFail: true})
	if isMistake(status, reply) {
		h.Fatalf("%d %s, of GET %s", status, messageOf(reply), path)
	}
	if status != http.StatusOK {
		return false
	}
	h.must(json.Unmarshal(reply, into))
	return true
}

// isFailure tells whether a reply to the test itself is a failure of it. What a disturbance
// does may be refused, and an action's objects may be gone or another's.
func (h *Hub) isFailure(status int, reply []byte) bool {
	switch {
	case h.isUnchecked:
		return false
	case h.isActing():
		return isMistake(status, reply)
	}
	return status >= http.StatusBadRequest
}

// isMistake tells whether a reply is what a typo in a request is answered by, whatever
// objects are there.
func isMistake(status int, reply []byte) bool {
	switch status {
	case http.StatusBadRequest, http.StatusMethodNotAllowed, http.StatusUnsupportedMediaType, http.StatusUnprocessableEntity:
		return true
	}
	return status == http.StatusNotFound && messageOf(reply) == "no such path"
}

// messageOf is what a refusal says.
func messageOf(reply []byte) string {
	var status struct{ Message string }
	if json.Unmarshal(reply, &status) != nil {
		return string(reply)
	}
	return status.Message
}

package controller

import (
	"bytes"
	"encoding/json"
	"io"
	"net/http"
)

// API is what the controller asks for databases by; client-go's dynamic client does the same.
type API struct{ Client http.Client }

// StatusError is a refusal, by the status of its reply.
type StatusError int

func (e StatusError) Error() string { return http.StatusText(int(e)) }

// Get reads a database.
func (a API) Get(name string) (map[string]any, error) {
	return a.send(http.MethodGet, name, nil)
}

// ReplaceStatus writes a database's status, where its version is still the one that was read.
func (a API) ReplaceStatus(name string, database map[string]any) error {
	_, err := a.send(http.MethodPut, name+"/status", database)
	return err
}

func (a API) send(method, path string, body map[string]any) (map[string]any, error) {
	var content io.Reader
	if body != nil {
		text, err := json.Marshal(body)
		if err != nil {
			return nil, err
		}
		content = bytes.NewReader(text)
	}
	request, err := http.NewRequest(method, "http://hub/apis/shop.example/v1/namespaces/default/databases/"+path, content)
	if err != nil {
		return nil, err
	}
	request.Header.Set("Content-Type", "application/json")
	response, err := a.Client.Do(request)
	if err != nil {
		return nil, err
	}
	defer response.Body.Close()
	if response.StatusCode/100 != 2 {
		return nil, StatusError(response.StatusCode)
	}
	var value map[string]any
	return value, json.NewDecoder(response.Body).Decode(&value)
}

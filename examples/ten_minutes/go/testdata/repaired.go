// Package controller says in a database's status how many replicas are ready. It expects that
// a database goes or changes before its status is written.
package controller

import "net/http"

// Reconcile writes the status of a database.
func Reconcile(api API, name string) error {
	database, err := api.Get(name)
	if err == nil {
		database["status"] = map[string]any{"ready": database["spec"].(map[string]any)["replicas"]}
		err = api.ReplaceStatus(name, database)
	}
	if err == StatusError(http.StatusNotFound) || err == StatusError(http.StatusConflict) {
		return nil // it is gone, or the next step writes it
	}
	return err
}

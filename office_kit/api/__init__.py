"""The HTTP interface: docs/openapi.yaml and OCDS as rules, and requests for each operation. The client is client.py, in the folder above."""

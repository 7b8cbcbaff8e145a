"""The form of what programs are told of a service, as JSON."""
from typing import Any

# The status of a service, whole or of a part such as a worker.
Status = dict[str, Any]

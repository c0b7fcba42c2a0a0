"""All models by their names, each with the sentence that says what such a server does wrong."""
from sftpv3.faults import (buffers, contents, deeper, far, handles, holdings, kept, kinds, meetings, names, opening,
                           order, places, reads, replies, served, squares, stores, takeovers, times, writes)

MODULES = (writes, reads, names, replies, opening, meetings, order, kept, stores, handles, served, times, places,
           contents, takeovers, holdings, deeper, buffers, squares, far)

# In the order of docs/PROBE.md: the classes of a module whose names are in small letters.
MODELS = {name.replace("_", "-"): model
          for module in MODULES for name, model in vars(module).items()
          if name.islower() and isinstance(model, type) and issubclass(model, kinds.Fault)}

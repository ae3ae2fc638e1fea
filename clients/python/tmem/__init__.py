"""Durable transactional memory with checked invariants, from Python.

    import tmem

    shape = {"vars": 2, "slots": 16, "invariants": [], "names": {"lease1": 0, "lease2": 1}}
    tmem.create("leases.store", shape, exist_ok=True)
    store = tmem.open("leases.store")

    @tmem.transaction
    def take(t, me):
        for lease in ("lease1", "lease2"):
            if t[lease] == 0:
                t[lease] = me
                return lease
        t.retry()

    lease = store.run(take, 7, timeout=5)   # waits for a lease; durable when it returns
"""

from .errors import Aborted, Closed, Exists, Fault, NoProgram, NoRequest, NotOpened, Refused, Stuck, Timeout, TmemError
from .making import create
from .store import State, Store, calling, open
from .transaction import Outcome, Transaction, or_else, transaction

__all__ = [
    "Aborted",
    "Closed",
    "Exists",
    "Fault",
    "NoProgram",
    "NoRequest",
    "NotOpened",
    "Outcome",
    "Refused",
    "State",
    "Store",
    "Stuck",
    "Timeout",
    "TmemError",
    "Transaction",
    "calling",
    "create",
    "open",
    "or_else",
    "transaction",
]
__version__ = "1.0.0"

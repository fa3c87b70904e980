"""What a refusal of hac is as an error of the system."""

from __future__ import annotations

import errno
from typing import Dict

# For each cause of a refusal the system's error. The key is its first word or, behind `limit`, two.
ERRORS: Dict[str, int] = {
    "bad-line": errno.EINVAL,
    "short-put": errno.EIO,
    "bad-name": errno.EINVAL,
    "bad-query": errno.EINVAL,
    "no-path": errno.ENOENT,
    "not-dir": errno.ENOTDIR,
    "loop": errno.ELOOP,
    "in-mount": errno.EROFS,
    "root": errno.EPERM,
    "not-file": errno.EISDIR,
    "not-semantic": errno.ENODATA,
    "not-mount": errno.EINVAL,
    "not-link": errno.EINVAL,
    "exists": errno.EEXIST,
    "under": errno.EINVAL,
    "not-empty": errno.ENOTEMPTY,
    "referenced": errno.EBUSY,
    "busy": errno.EBUSY,
    "not-linked": errno.ENOENT,
    "already": errno.EEXIST,
    "no-mark": errno.ENODATA,
    "cycle": errno.ELOOP,
    "no-space": errno.ENODEV,
    "space-fault": errno.EIO,
    "gone": errno.ENOENT,
    "limit line": errno.ENAMETOOLONG,
    "limit name": errno.ENAMETOOLONG,
    "limit target": errno.ENAMETOOLONG,
    "limit path": errno.ENAMETOOLONG,
    "limit text": errno.EFBIG,
    "limit query": errno.E2BIG,
    "limit terms": errno.E2BIG,
    "limit nesting": errno.E2BIG,
    "limit texts": errno.ENOSPC,
    "limit dirs": errno.ENOSPC,
    "limit semantics": errno.ENOSPC,
    "limit mounts": errno.ENOSPC,
    "limit symlinks": errno.ENOSPC,
    "limit sessions": errno.ENOSPC,
    "limit docs": errno.ENOSPC,
    "limit items": errno.ENOSPC,
    "limit numbers": errno.ENOSPC,
    "limit answers": errno.ENOSPC,
    "limit store": errno.ENOSPC,
}


def error_of(refusal: bytes) -> int:
    """The error that stands for a refusal. One that no page has is EIO."""
    parts = refusal.decode("ascii", "replace").split(" ")
    return ERRORS.get(" ".join(parts[:2]) if parts[0] == "limit" else parts[0], errno.EIO)

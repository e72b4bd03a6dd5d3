"""The questions that a session has and a script does not: the line that asks each, as docs/PROTOCOL.md has it, and its answer by the model."""
import re

MAX_REDO_ENTRIES, MAX_REDO_BYTES = 4096, 1 << 22


def has(store, tenant, address):
    return [f"has {len(store.object_of(tenant, address)[0])}"]


def uploads(store, tenant):
    store.tenant_at(tenant)
    found = [(number, upload) for number, upload in store.uploads.items() if upload.tenant == tenant]
    ends = ["-" if upload.end is None else upload.end for _, upload in found]
    return [f"uploads {len(found)}"] + [f"{number} {upload.bound} {end} {upload.held()}" for (number, upload), end in zip(found, ends)]


def tenants(store):
    usages = [f"{tenant} {store.used(tenant)} {store.reserved(tenant)} {limit}" for tenant, limit in enumerate(store.limits)]
    return [f"tenants {len(usages)}"] + usages


def number_of(store, address):
    """The number of the entry by which an object was filed."""
    return max(number for number, entry in enumerate(store.journal) if re.fullmatch(f"seal [0-9]+ {address} new", entry))


def objects(store, tenant, first, most):
    store.tenant_at(tenant)
    held = sorted((number_of(store, address), address, len(content)) for address, (content, holders) in store.objects.items() if tenant in holders)
    page = [found for found in held if found[0] >= first][:most]
    following = page[-1][0] + 1 if page else first
    return [f"objects {following} {len(page)}"] + [f"{address} {length}" for _, address, length in page]


def counts(store):
    return [f"entries {len(store.journal)} tenants {len(store.limits)} {store.stat()[0]}"]


def redo(store, first, count):
    """What redoes entries on another store: lines, with the bytes of objects after theirs. An object's bytes end the answer if they would be too many."""
    owners = [int(entry.split(" ")[2]) for entry in store.journal if entry.startswith(("begin ", "open "))]
    text, used, number = b"", 0, first
    for entry in store.journal[first : first + min(count, MAX_REDO_ENTRIES)]:
        word, *fields = entry.split(" ")
        line, content = "", b""
        if word == "tenant":
            line = f"tenant {fields[1]}\n"
        elif word in ("limit", "forget"):
            line = f"{entry}\n"
        elif word == "seal":
            tenant, address = owners[int(fields[0])], fields[1]
            filed, holders = store.objects.get(address, (b"", ()))
            if tenant in holders:
                line, content = f"fileas {tenant} {address} {len(filed)}\n", filed
        if used and len(content) > max(0, MAX_REDO_BYTES - used):
            break
        text, used, number = text + line.encode() + content, used + len(content), number + 1
    return [f"redo {number} {len(text)}", text]


def entries(store, first, most=None):
    return store.entries_from(first, most)


QUESTIONS = {
    "has T ADDRESS": has,
    "uploads T": uploads,
    "objects T FROM COUNT": objects,
    "tenants": tenants,
    "counts": counts,
    "redo FROM COUNT": redo,
    "entries FROM": entries,
    "entries FROM COUNT": entries,
}

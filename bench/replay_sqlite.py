"""Answers a session over twins and relationships as `dtdl replay` does, by sqlite3 in memory and with no check of a model: what
bench/replay measures beside it. Bodies are parsed and replies printed by json, statements are prepared once, all is one
transaction. It takes what bench/replay asks and nothing else; a stored text that is read is written as it stands."""
import json, sqlite3, sys

def printed(value): return json.dumps(value, sort_keys=True, ensure_ascii=False, separators=(",", ":"))

def patched(text, operations):
    tree = json.loads(text)
    for operation in operations:
        *steps, last = operation["path"][1:].split("/")
        at = tree
        for step in steps: at = at[step]
        if operation["op"] == "remove": del at[last]
        else: at[last] = operation["value"]
    return printed(tree)

def main():
    graph = sqlite3.connect(":memory:", isolation_level=None, cached_statements=64)
    for statement in ("CREATE TABLE twins (id TEXT PRIMARY KEY, body TEXT) WITHOUT ROWID",
                      "CREATE TABLE links (source TEXT, id TEXT, name TEXT, target TEXT, body TEXT, PRIMARY KEY (source, id)) WITHOUT ROWID",
                      "CREATE INDEX incoming ON links (target, source, id)", "BEGIN"): graph.execute(statement)
    ask, source, write = graph.execute, sys.stdin.buffer, sys.stdout.buffer.write
    def reply(text):
        body = text.encode()
        write(b"HTTP/1.1 200 OK\r\nContent-Length: %d\r\nContent-Type: application/json\r\n\r\n%s" % (len(body), body))
    while line := source.readline():
        method, target, _ = line.split(b" ")
        length = 0
        while (field := source.readline()) != b"\r\n":
            if field.startswith(b"Content-Length: "): length = int(field[16:])
        body = source.read(length)
        parts = target.decode().split("/")
        if parts[1] == "models":
            ids = sorted(interface["@id"] for interface in json.loads(body))
            made = printed([{"decommissioned": False, "id": id} for id in ids]).encode()
            write(b"HTTP/1.1 201 Created\r\nContent-Length: %d\r\nContent-Type: application/json\r\n\r\n%s" % (len(made), made))
        elif len(parts) == 5:
            link = json.loads(body)
            link["$sourceId"], link["$relationshipId"] = parts[2], parts[4]
            text = printed(link)
            ask("INSERT OR REPLACE INTO links VALUES (?, ?, ?, ?, ?)", (parts[2], parts[4], link["$relationshipName"], link["$targetId"], text))
            reply(text)
        elif method == b"GET":
            reply(ask("SELECT body FROM twins WHERE id = ?", (parts[2],)).fetchone()[0])
        elif method == b"PUT":
            twin = json.loads(body)
            twin["$dtId"] = parts[2]
            twin["$metadata"] = {"$model": twin["$metadata"]["$model"]}
            text = printed(twin)
            ask("INSERT OR REPLACE INTO twins VALUES (?, ?)", (parts[2], text))
            reply(text)
        else:
            text = patched(ask("SELECT body FROM twins WHERE id = ?", (parts[2],)).fetchone()[0], json.loads(body))
            ask("UPDATE twins SET body = ? WHERE id = ?", (text, parts[2]))
            write(b"HTTP/1.1 204 No Content\r\n\r\n")

main()

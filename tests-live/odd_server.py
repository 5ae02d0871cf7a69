"""A server between a tool and the program that answers some requests otherwise than the program would, for the cases of the tools."""
import http.client
import http.server
import threading

# In place of a reply: the program is asked, and the connection ends without its reply; or nobody is asked.
LOSE_REPLY, LOSE_REQUEST = "lose the reply", "lose the request"


def reply(status, body, kind="application/json", length=None):
    """The bytes of a reply, which may say another length than it has."""
    said = body.encode()
    return (f"HTTP/1.1 {status} x\r\ncontent-type: {kind}\r\ncontent-length: {len(said) if length is None else length}\r\n\r\n"
            .encode() + said)


class Odd:
    """Passes requests on to the server at a port but for those in `replies`: (method, target) and what is answered.

    Where `always` is set it is the answer to each of the others, and nothing is passed on.
    """

    def __init__(self, behind):
        self.behind, self.replies, self.always, self.asked = behind, {}, None, []
        odd = self

        class Handler(http.server.BaseHTTPRequestHandler):
            protocol_version, log_message = "HTTP/1.1", staticmethod(lambda *_: None)

            def answer(self):
                sent = self.rfile.read(int(self.headers.get("Content-Length", 0)))
                odd.asked.append((self.command, self.path))
                said = odd.replies.get((self.command, self.path), odd.always)
                if said == LOSE_REQUEST or isinstance(said, bytes):
                    self.close_connection = True
                    return said == LOSE_REQUEST or self.wfile.write(said)
                fields = {name: self.headers[name] for name in ("Office-Token",) if name in self.headers}
                found = odd.pass_on(self.command, self.path, sent, fields)
                if said == LOSE_REPLY or found is None:
                    self.close_connection = True
                    return None
                return self.wfile.write(found)
            do_GET = do_PUT = do_POST = do_DELETE = answer
        self.door = http.server.ThreadingHTTPServer(("127.0.0.1", 0), Handler)
        self.port = self.door.server_address[1]

    def pass_on(self, method, path, sent, fields):
        """The reply of the server behind; nothing where it gives none."""
        link = http.client.HTTPConnection("127.0.0.1", self.behind, timeout=20)
        try:
            link.request(method, path, sent, fields)
            found = link.getresponse()
            return reply(found.status, found.read().decode(), found.getheader("content-type"))
        except OSError:
            return None
        finally:
            link.close()

    def __enter__(self):
        threading.Thread(target=self.door.serve_forever, daemon=True).start()
        return self

    def __exit__(self, *_):
        self.door.shutdown()
        self.door.server_close()

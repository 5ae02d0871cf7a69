"""A server on loopback that lists the versions of one bucket, in two pages, and its lifecycle rules, as S3 does; for the AWS
command line."""
import http.server
import threading
import urllib.parse

PAGE = ('<?xml version="1.0" encoding="UTF-8"?><ListVersionsResult xmlns="http://s3.amazonaws.com/doc/2006-03-01/">'
        "<Name>photos</Name><Prefix></Prefix><KeyMarker></KeyMarker><VersionIdMarker></VersionIdMarker><MaxKeys>2</MaxKeys>"
        "<EncodingType>url</EncodingType>{}</ListVersionsResult>")
VERSION = ("<Version><Key>{}</Key><VersionId>{}</VersionId><IsLatest>{}</IsLatest>"
           "<LastModified>2024-01-01T00:00:00.000Z</LastModified><ETag>&quot;x&quot;</ETag><Size>{}</Size><StorageClass>{}</StorageClass></Version>")
FIRST = ("<IsTruncated>true</IsTruncated><NextKeyMarker>a%2Bb+c</NextKeyMarker><NextVersionIdMarker>v</NextVersionIdMarker>"
         + VERSION.format("a%2Bb+c", "v", "true", 5, "GLACIER") + VERSION.format("a%2Bb+c", "u", "false", 4, "STANDARD"))
SECOND = ("<IsTruncated>false</IsTruncated>" + VERSION.format("%C3%A9/%2541", "v", "true", 0, "STANDARD") +
          "<DeleteMarker><Key>gone</Key><VersionId>m</VersionId><IsLatest>true</IsLatest>"
          "<LastModified>2024-01-01T00:00:00.000Z</LastModified></DeleteMarker>")


# A configuration as the API has it, and no other page of it.
LIFECYCLE = ('<?xml version="1.0" encoding="UTF-8"?><LifecycleConfiguration xmlns="http://s3.amazonaws.com/doc/2006-03-01/">'
             "<Rule><ID>cold</ID><Filter><Prefix>raw/</Prefix></Filter><Status>Enabled</Status>"
             "<Transition><Days>30</Days><StorageClass>STANDARD_IA</StorageClass></Transition></Rule>"
             "<Rule><ID>end</ID><Filter><And><Prefix>a</Prefix><Tag><Key>k</Key><Value>v</Value></Tag></And></Filter><Status>Disabled</Status>"
             "<Expiration><Date>2030-01-01T00:00:00.000Z</Date></Expiration></Rule></LifecycleConfiguration>")


class Handler(http.server.BaseHTTPRequestHandler):
    def do_GET(self):
        asked = urllib.parse.parse_qs(urllib.parse.urlsplit(self.path).query, keep_blank_values=True)
        page = (LIFECYCLE if "lifecycle" in asked else PAGE.format(SECOND if "key-marker" in asked else FIRST)).encode()
        self.send_response(200)
        self.send_header("Content-Type", "application/xml")
        self.send_header("Content-Length", str(len(page)))
        self.end_headers()
        self.wfile.write(page)

    log_message = staticmethod(lambda *_: None)


def serve():
    """The server, which answers in a thread of its own."""
    server = http.server.ThreadingHTTPServer(("127.0.0.1", 0), Handler)
    threading.Thread(target=server.serve_forever, daemon=True).start()
    return server

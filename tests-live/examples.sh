#!/bin/sh
# Runs the sessions of examples/ and compares the bodies of their replies, but for moments, with what is written below.
#
#   examples.sh PROGRAM
set -u

tools='cmp grep sed tr'
examples=$(CDPATH='' cd -- "$(dirname -- "$0")/../examples" && pwd) || exit 1
. "$(dirname -- "$0")/common"
cd "$work" || exit 1

# Runs an example in a folder of its own, and compares with what stands on standard input.
session() {
    cat >wanted
    rm -rf office-data
    "$program" init >/dev/null || exit 1
    "$program" run <"$examples/$1" >said
    status=$?
    # Each reply's body stands on the line behind its empty line, with the next status line behind it.
    tr -d '\r' <said | sed 's/HTTP\/1\.1 [0-9][0-9][0-9] [A-Za-z ]*$//' | grep -a '^{' \
        | sed 's/"20[0-9-]*T[0-9:.]*Z"/"MOMENT"/g' >found
    if [ "$status" = 0 ] && cmp -s wanted found; then
        passed=$((passed + 1))
        echo "ok: $1"
    else
        failed=$((failed + 1))
        echo "FAILED: $1: status $status"
        sed 's/^/  wanted /' wanted
        sed 's/^/  found  /' found
    fi
}

session versions.http <<'END'
{"bucket":"backups"}
{"versioning":"Enabled"}
{"moment":"MOMENT","version":"1"}
{"moment":"MOMENT","version":"2"}
{"marker":"3"}
{"changed":"MOMENT","key":"db.dump","versions":[{"created":"MOMENT","kind":"marker","version":"3"},{"class":"STANDARD_IA","created":"MOMENT","entered":"MOMENT","kind":"object","noncurrent_since":"MOMENT","size":2147483648,"tags":{"keep":"no"},"version":"2"},{"class":"STANDARD","created":"MOMENT","entered":"MOMENT","kind":"object","noncurrent_since":"MOMENT","size":1073741824,"tags":{},"version":"1"}]}
{"removed":"3"}
{"tags":1}
{"changed":"MOMENT","key":"db.dump","versions":[{"class":"STANDARD_IA","created":"MOMENT","entered":"MOMENT","kind":"object","size":2147483648,"tags":{"keep":"yes"},"version":"2"},{"class":"STANDARD","created":"MOMENT","entered":"MOMENT","kind":"object","noncurrent_since":"MOMENT","size":1073741824,"tags":{},"version":"1"}]}
END
session upload.http <<'END'
{"bucket":"backups"}
{"upload":1}
{"part":1}
{"part":2}
{"class":"GLACIER","key":"disk.img","parts":[{"part":1,"size":5368709120},{"part":2,"size":1073741824}],"started":"MOMENT","tags":{},"upload":1}
{"moment":"MOMENT","version":"null"}
{"changed":"MOMENT","key":"disk.img","versions":[{"class":"GLACIER","created":"MOMENT","entered":"MOMENT","kind":"object","size":6442450944,"tags":{},"version":"null"}]}
END
session lifecycle.http <<'END'
{"bucket":"backups"}
{"rules":3}
{"Rules":[{"Expiration":{"Days":365},"Filter":{"Prefix":"daily/"},"ID":"cool down","Status":"Enabled","Transitions":[{"Days":30,"StorageClass":"STANDARD_IA"},{"Days":90,"StorageClass":"GLACIER"}]},{"AbortIncompleteMultipartUpload":{"DaysAfterInitiation":7},"Filter":{"Prefix":""},"ID":"old versions","NoncurrentVersionExpiration":{"NewerNoncurrentVersions":3,"NoncurrentDays":30},"Status":"Enabled"},{"Expiration":{"ExpiredObjectDeleteMarker":true},"Filter":{"Prefix":""},"ID":"lone markers","Status":"Enabled"}],"TransitionDefaultMinimumObjectSize":"all_storage_classes_128K"}
{"bucket":"backups","rules":3,"uploads":0,"versioning":"Unversioned","versions":0}
END
session act.http <<'END'
{"bucket":"backups"}
{"rules":1}
{"moment":"MOMENT","version":"null"}
{"action":"remove","key":"old.log","moment":"MOMENT","rule":"past","version":"null"}
{"action":"remove","key":"old.log","moment":"MOMENT","rule":"past","version":"null"}
{"action":"none"}
{"bucket":"backups","rules":1,"uploads":0,"versioning":"Unversioned","versions":0}
END
session token.http <<'END'
{"bucket":"backups"}
{"versioning":"Enabled"}
{"moment":"MOMENT","version":"1"}
{"moment":"MOMENT","version":"1"}
{"error":"TokenReused","kind":5,"number":92}
{"bucket":"backups","rules":0,"uploads":0,"versioning":"Enabled","versions":1}
END

finish

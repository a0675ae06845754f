#!/bin/sh
# Gives the organisation of examples/organisation to a catalogue over HTTP, asks who owns what, moves an owner, and sees what changed.
# It needs a server, as ./catalogue serve 127.0.0.1:8391, and curl. Another address may be given as the first word.
set -e
url=${1:-http://127.0.0.1:8391}
files=$(dirname "$0")/organisation

# ask WORDS: curl that says nothing of its own, and fails where the answer is an error.
ask() {
    curl -sS -f "$@"
}

# Each file becomes a text on the shelf, under its path from the root of the organisation.
for file in $(cd "$files" && find . -name '*.yaml' | sort); do
    ask -X PUT --data-binary "@$files/$file" "$url/shelf?name=file:/${file#./}"
done

# A provider gives one Location, which names the root file; all others are named from there. The serial must be above the provider's last one.
ask -o /dev/null -d '{"serial":'"$(date +%s)"',"entities":[{"entity":{"apiVersion":"backstage.io/v1alpha1","kind":"Location",
    "metadata":{"name":"root"},"spec":{"type":"file","target":"/catalog-info.yaml"}}}]}' "$url/providers/organisation/full"

# Workers process it anyway; settle waits until all is there.
ask -o /dev/null -X POST "$url/settle"
echo "what failed:             $(ask "$url/failed")"

echo "what team-logistics has: $(ask "$url/entities?filter=relations.ownedBy=group:default/team-logistics&fields=metadata.name")"
echo "who owns how much:       $(ask "$url/entity-facets?facet=relations.ownedBy&filter=kind=component")"

# From here on, what changes? The place is the last thing that an answer of /changes says.
place=$(ask "$url/changes" | sed 's/.*"to":"\([^"]*\)"}$/\1/')

# Another team takes the stock service over: its file says so, and is put in place of the one before.
sed 's|owner: group:default/team-logistics|owner: group:default/team-platform|' "$files/logistics/catalog-info.yaml" |
    ask -X PUT --data-binary @- "$url/shelf?name=file:/logistics/catalog-info.yaml"
ask -o /dev/null -X POST "$url/settle"

echo "what team-logistics has: $(ask "$url/entities?filter=relations.ownedBy=group:default/team-logistics&fields=metadata.name")"
echo "what changed:            $(ask "$url/changes?since=$place" | grep -o '"entityRef":"[^"]*"' | cut -d '"' -f 4 | tr '\n' ' ')"

#!/usr/bin/env python3
"""postgres.py COUNT [SECONDS]: what a query costs on Backstage's own tables in PostgreSQL.

Fills a private PostgreSQL cluster (started and ended here, socket only) with the entities of the generator `sample 7 COUNT`
as Backstage keeps them: final_entities (document text by reference), search (entity, key, value) with its indexes, and
prints for each query the mean milliseconds of pgbench with one client, prepared statements. The queries are those that
Backstage's catalog issues for by-name, a filter of three conditions, a page ordered by a field with its total, and a facet.
"""
import glob, json, os, shutil, subprocess, sys, tempfile, time

def sample(seed, count):
    x = seed
    comps = []
    for k in range(count):
        x = (x * 1103515245 + 12345) % 2**31
        d = x // 65536
        comps.append((k, d % 10, d % k if k else None))
    return comps

def documents(count):
    comps = sample(7, count)
    dependents, owned = {}, {}
    for k, j, i in comps:
        owned.setdefault(j, []).append(k)
        if i is not None: dependents.setdefault(i, []).append(k)
    for j in range(10):
        rel = [('ownerOf', f'component:default/c{k}') for k in owned.get(j, [])]
        yield f'group:default/g{j}', {'apiVersion': 'backstage.io/v1alpha1', 'kind': 'Group', 'metadata': {'name': f'g{j}', 'namespace': 'default'}, 'spec': {'children': [], 'type': 'team'}}, sorted(rel)
    for k, j, i in comps:
        spec = {'lifecycle': 'production', 'owner': f'g{j}', 'type': 'service'}
        rel = [('ownedBy', f'group:default/g{j}')] + [('dependencyOf', f'component:default/c{n}') for n in dependents.get(k, [])]
        if i is not None:
            spec['dependsOn'] = [f'component:c{i}']; rel.append(('dependsOn', f'component:default/c{i}'))
        yield f'component:default/c{k}', {'apiVersion': 'backstage.io/v1alpha1', 'kind': 'Component', 'metadata': {'name': f'c{k}', 'namespace': 'default'}, 'spec': spec}, sorted(rel)

def rows(path, value):
    if isinstance(value, dict):
        for k, v in value.items(): yield from rows(f'{path}.{k}' if path else k, v)
    elif isinstance(value, list):
        for v in value:
            yield from rows(path, v)
            if isinstance(v, str): yield f'{path}.{v}', 'true'
    elif value is not None: yield path, str(value)

QUERIES = {
    'by-name': "select final_entity from final_entities where entity_ref = concat('component', chr(58), 'default/c', cast(:k as int))",
    'filter': "select final_entity from final_entities where entity_id in (select entity_id from search where key = 'kind' and value = 'component') and entity_id in (select entity_id from search where key = 'spec.type' and value = 'service') and entity_id in (select entity_id from search where key = 'relations.ownedby' and value = concat('group', chr(58), 'default/g3')) and final_entity is not null order by entity_ref",
    'page': "with f as (select s.entity_id, s.value from search s where s.key = 'metadata.name' and s.entity_id in (select entity_id from search where key = 'kind' and value = 'component')), c as (select count(*) n from f) select e.final_entity, f.value, c.n from f join final_entities e using (entity_id), c order by f.value, e.entity_id limit 20",
    'facet': "select original_value, count(*) from search where key = 'spec.owner' and entity_id in (select entity_id from search where key = 'kind' and value = 'component') group by original_value",
}

def main():
    count, seconds = int(sys.argv[1]), int(sys.argv[2]) if len(sys.argv) > 2 else 5
    if not glob.glob('/usr/lib/postgresql/*/bin/initdb'):
        subprocess.run('apt-get update -q >&2 && DEBIAN_FRONTEND=noninteractive apt-get install -qy postgresql >&2', shell=True, check=True)
    bins = sorted(glob.glob('/usr/lib/postgresql/*/bin'))[-1]
    folder = tempfile.mkdtemp(); os.chmod(folder, 0o777)
    run = lambda *w, **k: subprocess.run(['su', 'postgres', '-c', ' '.join(w)], check=True, stdout=subprocess.PIPE, text=True, **k).stdout
    data = f'{folder}/data'
    try:
        run(f'{bins}/initdb -D {data} -A trust >/dev/null')
        run(f"{bins}/pg_ctl -D {data} -o \"-k {folder} -c listen_addresses='' -c shared_buffers=512MB -c work_mem=64MB\" -w start >/dev/null")
        sql = f'{folder}/fill.sql'
        with open(sql, 'w') as f:
            f.write("create table final_entities (entity_id text primary key, entity_ref text unique, final_entity text);\ncreate table search (entity_id text, key text, value text, original_value text);\n")
            f.write("copy final_entities from stdin;\n")
            found = list(documents(count))
            for n, (ref, doc, rel) in enumerate(found):
                doc['relations'] = [{'targetRef': t, 'type': y} for y, t in rel]
                f.write(f"{n:08d}\t{ref}\t{json.dumps(doc, separators=(',', ':'), sort_keys=True)}\n")
            f.write("\\.\ncopy search from stdin;\n")
            for n, (ref, doc, rel) in enumerate(found):
                plain = {k: v for k, v in doc.items() if k != 'relations'}
                for k, v in list(rows('', plain)) + [(f'relations.{y}', t) for y, t in rel]:
                    f.write(f"{n:08d}\t{k.lower()}\t{v.lower()}\t{v}\n")
            f.write("\\.\ncreate index on search (key, value, entity_id); create index on search (entity_id); vacuum analyze;\n")
        os.chmod(sql, 0o644)
        start = time.time(); run(f'{bins}/psql -q -h {folder} -f {sql} postgres'); print(f'filled {count} in {time.time() - start:.1f} s')
        for name, query in QUERIES.items():
            file = f'{folder}/{name}.sql'
            open(file, 'w').write(f'\\set k random(0, {count - 1})\n{query};\n' if ':k' in query else query + ';\n')
            os.chmod(file, 0o644)
            out = run(f'{bins}/pgbench -n -M prepared -h {folder} -T {seconds} -c 1 -f {file} postgres')
            mean = [l for l in out.splitlines() if 'latency average' in l][0].split('=')[1].strip()
            print(f'{name}: {mean}')
    finally:
        subprocess.run(['su', 'postgres', '-c', f'{bins}/pg_ctl -D {data} -m immediate stop >/dev/null'], capture_output=True)
        shutil.rmtree(folder, ignore_errors=True)

main()

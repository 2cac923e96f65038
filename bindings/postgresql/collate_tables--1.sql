\echo Use "CREATE EXTENSION collate_tables" to load this file. \quit

-- By which tables the keys of each name are made. It is written by collate_use and collate_accept alone.
CREATE TABLE collate_names (name text COLLATE "C" PRIMARY KEY, fingerprint text NOT NULL);
GRANT SELECT ON collate_names TO PUBLIC;
SELECT pg_extension_config_dump('collate_names', '');

-- A name that is registered stays as it is if a dump is restored over it.
CREATE FUNCTION collate_kept() RETURNS trigger
LANGUAGE plpgsql SET search_path = @extschema@, pg_temp AS $$
BEGIN
  RETURN CASE WHEN NOT EXISTS (SELECT FROM collate_names WHERE name = NEW.name) THEN NEW END;
END $$;
CREATE TRIGGER kept BEFORE INSERT ON collate_names FOR EACH ROW EXECUTE FUNCTION collate_kept();

CREATE FUNCTION collate_key(text, name text) RETURNS bytea
  AS 'MODULE_PATHNAME' LANGUAGE C IMMUTABLE STRICT PARALLEL SAFE COST 10;
CREATE FUNCTION collate_low(text, name text) RETURNS bytea
  AS 'MODULE_PATHNAME' LANGUAGE C IMMUTABLE STRICT PARALLEL SAFE COST 10;
CREATE FUNCTION collate_high(text, name text) RETURNS bytea
  AS 'MODULE_PATHNAME' LANGUAGE C IMMUTABLE STRICT PARALLEL SAFE COST 10;
CREATE FUNCTION collate_compare(text, text, name text) RETURNS integer
  AS 'MODULE_PATHNAME' LANGUAGE C IMMUTABLE STRICT PARALLEL SAFE COST 10;

-- That of the tables that are in the folder now.
CREATE FUNCTION collate_fingerprint(name text) RETURNS text
  AS 'MODULE_PATHNAME', 'collate_fingerprint_of' LANGUAGE C VOLATILE STRICT PARALLEL SAFE COST 1000000;

CREATE FUNCTION collate_is_used(pg_node_tree, name text) RETURNS boolean
  AS 'MODULE_PATHNAME' LANGUAGE C STABLE STRICT PARALLEL SAFE COST 1000;

-- What is stored by the keys of a name, as far as the catalogue knows.
CREATE FUNCTION collate_uses(name text) RETURNS TABLE (kind text, what text, place regclass)
LANGUAGE sql STABLE STRICT SET search_path = @extschema@, pg_temp AS $$
  SELECT 'index', indexrelid::regclass::text, indrelid::regclass FROM pg_index JOIN pg_class ON pg_class.oid = indexrelid
    WHERE relkind = 'i' AND (collate_is_used(indexprs, $1) OR collate_is_used(indpred, $1))
  UNION ALL
  SELECT 'generated column', attname, attrelid::regclass
    FROM pg_attrdef JOIN pg_attribute ON attrelid = adrelid AND attnum = adnum
    WHERE attgenerated <> '' AND collate_is_used(adbin, $1)
  UNION ALL
  SELECT 'constraint', conname, conrelid::regclass FROM pg_constraint WHERE convalidated AND collate_is_used(conbin, $1)
  UNION ALL
  SELECT 'partition key', pg_get_partkeydef(partrelid), partrelid::regclass FROM pg_partitioned_table
    WHERE collate_is_used(partexprs, $1)
  UNION ALL
  SELECT 'materialized view', relname, ev_class::regclass FROM pg_rewrite JOIN pg_class ON pg_class.oid = ev_class
    WHERE relkind = 'm' AND relispopulated AND collate_is_used(ev_action, $1)
$$;

-- Registers a name by the tables that are in the folder now, whatever it had before, and makes its indexes anew.
CREATE FUNCTION collate_accept(name text) RETURNS text
LANGUAGE plpgsql STRICT SET search_path = @extschema@, pg_temp AS $$
#variable_conflict use_column
DECLARE
  digits text := collate_fingerprint($1);
  it record;
BEGIN
  IF EXISTS (SELECT FROM collate_names WHERE name = $1 AND fingerprint = digits) THEN
    RETURN digits;
  END IF;
  IF current_setting('transaction_isolation') <> 'read committed' THEN
    RAISE EXCEPTION 'collate_accept works in READ COMMITTED alone, as it has to see each index that there is';
  END IF;
  -- First the tables, then the names: a statement locks its tables before it makes keys, too.
  FOR it IN SELECT DISTINCT place FROM collate_uses($1) WHERE kind = 'index' ORDER BY place LOOP
    EXECUTE format('LOCK TABLE %s IN ACCESS EXCLUSIVE MODE', it.place);
  END LOOP;
  LOCK TABLE collate_names IN ACCESS EXCLUSIVE MODE;
  FOR it IN SELECT * FROM collate_uses($1) WHERE kind <> 'index' LOOP
    RAISE EXCEPTION 'keys of collation "%" are stored by % % of %', $1, it.kind, it.what, it.place
      USING ERRCODE = 'dependent_objects_still_exist',
            HINT = format('Drop it, accept the tables, and make it anew. SELECT * FROM collate_uses(%L) lists all such.', $1);
  END LOOP;
  INSERT INTO collate_names VALUES ($1, digits);
  UPDATE collate_names SET fingerprint = digits WHERE name = $1;
  -- Prepared statements have bounds by the old tables. A change of a function that they call has them planned again.
  ALTER FUNCTION collate_key(text, text) COST 10;
  FOR it IN SELECT * FROM collate_uses($1) ORDER BY place, what LOOP
    EXECUTE format('LOCK TABLE %s IN ACCESS EXCLUSIVE MODE', it.place);
    EXECUTE format('REINDEX INDEX %s', it.what);
    RAISE NOTICE 'index % of % is made anew', it.what, it.place;
  END LOOP;
  RETURN digits;
END $$;

-- Registers a name, if it isn't yet.
CREATE FUNCTION collate_use(name text) RETURNS text
LANGUAGE sql STRICT SET search_path = @extschema@, pg_temp AS $$
  SELECT coalesce((SELECT fingerprint FROM collate_names n WHERE n.name = $1), collate_accept($1))
$$;

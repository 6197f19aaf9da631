\echo Use "CREATE EXTENSION wasmloop" to load this file. \quit
-- raises an error if the bytes are no module: the row is checked before a function needs it
CREATE FUNCTION is_module(bytea) RETURNS boolean LANGUAGE c IMMUTABLE STRICT PARALLEL SAFE AS 'MODULE_PATHNAME', 'wasmloop_is_module';
-- Only the extension's owner may write it. GRANT INSERT lets a role add modules, and replace none. Functions need no right to read it.
CREATE TABLE module (name text COLLATE pg_catalog."C" PRIMARY KEY, code bytea NOT NULL CHECK (@extschema@.is_module(code)));
SELECT pg_catalog.pg_extension_config_dump('module', '');
-- bytes that the modules and guests of this session have
CREATE FUNCTION memory() RETURNS bigint LANGUAGE c VOLATILE PARALLEL RESTRICTED AS 'MODULE_PATHNAME', 'wasmloop_memory';
CREATE FUNCTION handler() RETURNS language_handler LANGUAGE c AS 'MODULE_PATHNAME', 'wasmloop_handler';
CREATE FUNCTION validator(oid) RETURNS void LANGUAGE c STRICT AS 'MODULE_PATHNAME', 'wasmloop_validator';
CREATE TRUSTED LANGUAGE wasmloop HANDLER handler VALIDATOR validator;
COMMENT ON LANGUAGE wasmloop IS 'functions of WebAssembly modules, within fuel and depth';

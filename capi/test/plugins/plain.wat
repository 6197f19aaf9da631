(module (func (export "f") (param i32) (result i32) (local.get 0)) (func (export "id64") (param i64 i64 i64 i64) (result i64) (local.get 0)))

//! What is left of a declaration, and its record number: FORMAT, sections 6.8 and 6.9.

use crate::cty::{Ty, Types};
use crate::layout::{kept_fields, Kept, Layout};
use crate::program::{Body, Ctor, Decl, Field, REALIZED, SOURCE_RECORD};

/// The types that `rw_decl` resolves, in its order.
pub fn resolves(d: &Decl, layout: Layout, kept: &Kept) -> Vec<Ty> {
    match layout {
        Layout::Erased | Layout::Opaque => vec![],
        Layout::Newtype(t) | Layout::Abbrev(t) => vec![t],
        Layout::Struct => kept_fields(d, kept).into_iter().flatten().map(|f| f.ty).collect(),
    }
}

/// `rw_decl`: the left declaration, if there is one; `resolved` are the types above, resolved.
pub fn rw_decl(types: &Types, d: &Decl, layout: Layout, kept: &Kept, resolved: &[Ty]) -> Option<Decl> {
    let with = |body: Body| Decl { body, ..d.clone() };
    match layout {
        Layout::Erased => None,
        Layout::Newtype(_) => collapsed_abbrev(types, d, resolved[0]),
        Layout::Abbrev(_) => Some(with(Body::Abbrev(resolved[0]))),
        Layout::Opaque => Some(d.clone()),
        Layout::Struct => {
            let mut resolved = resolved.iter();
            let mut field = |f: Field| Field { ty: *resolved.next().unwrap(), ..f };
            let mut fields: Vec<Vec<Field>> = Vec::new();
            for kept in kept_fields(d, kept) {
                fields.push(kept.into_iter().map(&mut field).collect());
            }
            Some(with(match &d.body {
                Body::Record(_) => Body::Record(fields.remove(0)),
                Body::Variant(ctors) => {
                    Body::Variant(ctors.iter().zip(fields).map(|(c, fields)| Ctor { name: c.name, fields }).collect())
                }
                Body::Abstract | Body::Abbrev(_) => unreachable!("a struct is a record or a variant"),
            }))
        }
    }
}

/// `collapsed_abbrev`: an abbreviation of the payload, if each parameter occurs in it.
fn collapsed_abbrev(types: &Types, d: &Decl, payload: Ty) -> Option<Decl> {
    let vars = types.cty_vars(payload);
    d.params.iter().all(|p| vars.contains(p)).then(|| Decl { body: Body::Abbrev(payload), ..d.clone() })
}

/// `record_verdict`, read off the left declaration.
pub fn record_verdict(left: Option<&Decl>) -> bool {
    match left {
        None => false,
        Some(d) if d.has(REALIZED) => d.has(SOURCE_RECORD),
        Some(d) => match &d.body {
            Body::Variant(ctors) => matches!(&ctors[..], [one] if !one.fields.is_empty()),
            _ => false,
        },
    }
}

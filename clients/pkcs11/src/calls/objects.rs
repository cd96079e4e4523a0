//! Object management functions (5.7).
//!
//! The token doesn't know some attributes that many applications name, and of which each of its objects has one value: `fixed` has them.
//! So of such objects that value is returned, and taken in a template. Any other value goes to the token, which refuses it.

use super::{in_session, made, told};
use crate::abi::codes::*;
use crate::abi::numbers::*;
use crate::abi::{CK_ATTRIBUTE, CK_RV};
use crate::edge::memory::{Input, Numbers, Place, Template};
use crate::error::{Answer, Error, Loss};
use crate::frame::{Function, MAX_ENTRIES, Reply, Request};
use crate::link::Link;
use crate::process::with_session;

/// The most handles that one reply has.
const MAX_HANDLES: u64 = 1_024;

/// The class that a template gives, if it does.
fn class_in(template: &Template) -> Option<u64> {
    let entries = (0..template.count().unwrap_or(0)).map(|at| template.entry(at));
    entries.filter(|it| it.attribute_type == CKA_CLASS).find_map(|it| template.value(&it).number())
}

/// The class whose objects all have what an entry says, if the token doesn't know the entry's type.
fn class_said_by(attribute_type: u64, value: &Input) -> Option<u64> {
    fixed(attribute_type).filter(|(_, wanted)| value.is(wanted)).map(|(class, _)| class)
}

/// The class of the first entry that says what all objects of a class have.
fn class_said_in(template: &Template) -> Option<u64> {
    let entries = (0..template.count().unwrap_or(0)).map(|at| template.entry(at));
    entries.into_iter().find_map(|it| class_said_by(it.attribute_type, &template.value(&it)))
}

/// The template of an object that is made, of a class that it gives, or else of this one, if there is one. What every object of the
/// class has goes without saying. Of a class that the token hasn't, the class alone is sent, so that it is the class that is refused.
pub fn made_of<'a>(request: Request<'a>, template: &Template, class: Option<u64>) -> Request<'a> {
    let class = class_in(template).or(class);
    request.template(template, |kind, value| match class {
        Some(class) if !is_class(class) => kind != CKA_CLASS,
        _ => class_said_by(kind, value).is_some_and(|it| class.is_none_or(|class| it == class)),
    })
}

/// The template by which an object of a class is copied or changed.
fn changed_by<'a>(request: Request<'a>, template: &Template, class: Option<u64>) -> Request<'a> {
    request.template(template, |kind, value| class.is_some() && class_said_by(kind, value) == class)
}

/// The class of an object, if the template says what all of a class have. Where it isn't returned, the token refuses the template.
fn class_for(template: &Template, link: &mut Link, session: u64, object: u64) -> Option<u64> {
    class_said_in(template).and_then(|_| class_of(link, session, object).ok())
}

/// C_CreateObject.
pub fn create_object(session: u64, template: Template, object: Place<u64>) -> Answer {
    made(Function::CreateObject, session, object, |it| made_of(it, &template, None))
}

/// C_CopyObject.
pub fn copy_object(session: u64, original: u64, template: Template, object: Place<u64>) -> Answer {
    object.check()?;
    let handle = with_session(session, |link| {
        let class = class_for(&template, link, session, original);
        link.in_session(
            Function::CopyObject,
            session,
            |it| changed_by(it.object(original), &template, class),
            |it| {
                it.ok()?;
                it.object()
            },
        )
    })?;
    object.put(handle)
}

/// C_DestroyObject.
pub fn destroy_object(session: u64, object: u64) -> Answer {
    told(Function::DestroyObject, session, |it| it.object(object))
}

/// C_GetObjectSize.
pub fn get_object_size(session: u64, object: u64, size: Place<u64>) -> Answer {
    size.check()?;
    let found = in_session(
        Function::GetObjectSize,
        session,
        |it| it.object(object),
        |it| {
            it.ok()?;
            it.number()
        },
    )?;
    size.put(found)
}

/// C_GetAttributeValue. A request asks for at most 32 attributes, so that more are asked for in several, one after the other.
pub fn get_attribute_value(session: u64, object: u64, template: Template) -> Answer {
    let count = template.count()?;
    let (unknown, known): (Vec<usize>, Vec<usize>) = (0..count).partition(|at| fixed(template.entry(*at).attribute_type).is_some());
    with_session(session, |link| {
        let mut codes = Vec::new();
        if unknown.is_empty() || !known.is_empty() {
            let chunks = known.chunks(MAX_ENTRIES).chain(known.is_empty().then_some(&[][..]));
            for indices in chunks {
                codes.push(values(link, session, object, &template, indices)?);
            }
        }
        if !unknown.is_empty() {
            let class = class_of(link, session, object)?;
            codes.extend(unknown.iter().map(|at| put_fixed(&template, *at, class)));
        }
        worst(&codes)
    })
}

/// The code of the whole, by the codes of its parts: in the order that the token has for the entries of one request.
fn worst(codes: &[CK_RV]) -> Answer {
    let order = [CKR_ATTRIBUTE_SENSITIVE, CKR_ATTRIBUTE_TYPE_INVALID, CKR_BUFFER_TOO_SMALL];
    order.into_iter().find(|it| codes.contains(it)).map_or(Ok(()), |it| Err(Error::Token(it)))
}

/// Asks for the attributes at some indices, and writes their values. Returns the code.
fn values(link: &mut Link, session: u64, object: u64, template: &Template, indices: &[usize]) -> Answer<CK_RV> {
    let entries: Vec<CK_ATTRIBUTE> = indices.iter().map(|at| template.entry(*at)).collect();
    let query: Vec<_> = entries.iter().map(|it| (it.attribute_type, if it.value.is_null() { None } else { Some(it.value_len) })).collect();
    link.in_session(
        Function::GetAttributeValue,
        session,
        |it| it.object(object).query(&query),
        |it| {
            let code = it.code();
            if code != CKR_OK && worst(&[code]).is_ok() {
                return Err(Error::Token(code));
            }
            if it.count()? != entries.len() {
                return Err(Error::Lost(Loss::Nonsense));
            }
            for (at, entry) in indices.iter().zip(&entries) {
                put_value(it, template, *at, entry)?;
            }
            Ok(code)
        },
    )
}

/// Reads the value of an attribute, and writes it with its length. Without a value there is no length but where none was asked for, or
/// the application would read what isn't there.
fn put_value(reply: &mut Reply<'_>, template: &Template, at: usize, entry: &CK_ATTRIBUTE) -> Answer {
    let len = reply.number()?;
    if reply.tag()? {
        let value = reply.raw(len)?;
        match <[u8; 8]>::try_from(value) {
            Ok(number) if is_number(entry.attribute_type) => template.put(entry, &u64::from_be_bytes(number).to_ne_bytes())?,
            _ => template.put(entry, value)?,
        }
    } else if len != UNAVAILABLE && !entry.value.is_null() {
        return Err(Error::Lost(Loss::Nonsense));
    }
    template.set_len(at, len);
    Ok(())
}

/// The class of an object.
fn class_of(link: &mut Link, session: u64, object: u64) -> Answer<u64> {
    let query = [(CKA_CLASS, Some(8))];
    link.in_session(
        Function::GetAttributeValue,
        session,
        |it| it.object(object).query(&query),
        |it| {
            it.ok()?;
            let head = (it.count()?, it.number()?, it.tag()?);
            if head == (1, 8, true) { it.number() } else { Err(Error::Lost(Loss::Nonsense)) }
        },
    )
}

/// The value of an attribute that every object of a class has with one value, and that nothing else has.
fn put_fixed(template: &Template, at: usize, class: u64) -> CK_RV {
    let entry = template.entry(at);
    let (len, code) = match fixed(entry.attribute_type) {
        Some((of, value)) if of == class => match template.put(&entry, value) {
            _ if entry.value.is_null() => (value.len() as u64, CKR_OK),
            Ok(()) => (value.len() as u64, CKR_OK),
            Err(_) => (UNAVAILABLE, CKR_BUFFER_TOO_SMALL),
        },
        _ => (UNAVAILABLE, CKR_ATTRIBUTE_TYPE_INVALID),
    };
    template.set_len(at, len);
    code
}

/// C_SetAttributeValue.
pub fn set_attribute_value(session: u64, object: u64, template: Template) -> Answer {
    with_session(session, |link| {
        let class = class_for(&template, link, session, object);
        link.in_session(Function::SetAttributeValue, session, |it| changed_by(it.object(object), &template, class), |it| it.ok())
    })
}

/// C_FindObjectsInit. What every object of a class has is searched for as the class.
pub fn find_objects_init(session: u64, template: Template) -> Answer {
    let given = class_in(&template);
    let said = class_said_in(&template);
    told(Function::FindObjectsInit, session, |it| {
        let place = it.place();
        let it = changed_by(it, &template, given.or(said));
        match said {
            Some(class) if given.is_none() => it.and_number(place, CKA_CLASS, class),
            _ => it,
        }
    })
}

/// C_FindObjects. A reply has at most 1,024 handles, so that it is asked until there are as many as are wanted, or no more.
pub fn find_objects(session: u64, objects: Numbers, count: Place<u64>) -> Answer {
    count.check()?;
    let most = objects.room()?;
    let found = with_session(session, |link| {
        let mut found = 0;
        loop {
            let wanted = (most - found).min(MAX_HANDLES);
            let more = link.in_session(
                Function::FindObjects,
                session,
                |it| it.number(wanted),
                |it| {
                    it.ok()?;
                    let handles = (0..it.count()?).map(|_| it.object()).collect::<Result<Vec<_>, _>>()?;
                    objects.put(found, &handles)?;
                    Ok(handles.len() as u64)
                },
            )?;
            found += more;
            if more < wanted || found == most {
                return Ok(found);
            }
        }
    })?;
    count.put(found)
}

/// C_FindObjectsFinal.
pub fn find_objects_final(session: u64) -> Answer {
    told(Function::FindObjectsFinal, session, |it| it)
}

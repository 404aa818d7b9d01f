//! Both polarisations in one store, request 7 of document 02.

use crate::points::{Point, RECORD, STORE_LIMIT};
use crate::refusal::{refuse_if, Refusal};
use std::collections::BTreeMap;

/// The records of a store and their frame numbers.
fn by_frame(store: &[u8]) -> Vec<(u16, &[u8])> {
    store.chunks_exact(RECORD).map(|record| (Point::read(record).frame, record)).collect()
}

/// Makes one store of two: the records found in either, by rising frame numbers, at the front of `out`; their length in bytes.
pub fn merge(first: &[u8], second: &[u8], out: &mut [u8]) -> Result<usize, Refusal> {
    let stores = [first, second];
    refuse_if(stores.iter().any(|store| store.len() % RECORD != 0 || store.len() > STORE_LIMIT), Refusal::Length)?;
    let records = stores.map(by_frame);
    let falls = |store: &Vec<(u16, &[u8])>| store.windows(2).any(|two| two[0].0 >= two[1].0);
    refuse_if(records.iter().any(falls), Refusal::Order)?;
    let mut union = BTreeMap::new();
    for (frame, record) in records.into_iter().flatten() {
        let other = union.insert(frame, record);
        refuse_if(other.is_some_and(|other| other != record), Refusal::Clash)?;
    }
    let bytes = union.into_values().collect::<Vec<&[u8]>>().concat();
    refuse_if(bytes.len() > STORE_LIMIT, Refusal::Length)?;
    refuse_if(bytes.len() > out.len(), Refusal::Short)?;
    out[..bytes.len()].copy_from_slice(&bytes);
    Ok(bytes.len())
}

#[cfg(test)]
mod tests {
    use super::*;
    use crate::points::store_of;

    fn store(records: &[(i16, u16)]) -> Vec<u8> {
        store_of(&records.iter().map(|&(y, frame)| Point { x: [1, 0, 0, 0], y, frame }).collect::<Vec<Point>>())
    }

    fn merged(first: &[(i16, u16)], second: &[(i16, u16)]) -> Result<Vec<u8>, Refusal> {
        let mut out = [0; 120];
        let length = merge(&store(first), &store(second), &mut out)?;
        Ok(out[..length].to_vec())
    }

    #[test]
    fn records_of_either_once() {
        assert_eq!(merged(&[], &[]), Ok(vec![]));
        assert_eq!(merged(&[(1, 0), (2, 65535)], &[]), Ok(store(&[(1, 0), (2, 65535)])));
        assert_eq!(
            merged(&[(1, 3), (2, 40000)], &[(5, 2), (2, 40000), (6, 40001)]),
            Ok(store(&[(5, 2), (1, 3), (2, 40000), (6, 40001)]))
        );
    }

    #[test]
    fn checks_in_order() {
        assert_eq!(merge(&[0; 13], &store(&[(1, 2), (1, 2)]), &mut []), Err(Refusal::Length));
        assert_eq!(merged(&[(1, 2)], &[(2, 2), (2, 2)]), Err(Refusal::Order));
        assert_eq!(merged(&[(1, 2), (3, 9)], &[(-32768, 2)]), Err(Refusal::Clash));
        assert_eq!(merge(&store(&[(1, 2)]), &store(&[(1, 3)]), &mut [0; 23]), Err(Refusal::Short));
        let many: Vec<(i16, u16)> = (0..4096).map(|frame| (0, frame)).collect();
        assert_eq!(merge(&store(&many), &store(&[(0, 4096)]), &mut []), Err(Refusal::Length));
        assert_eq!(merge(&store(&many), &store(&[(0, 4095)]), &mut vec![0; STORE_LIMIT]), Ok(STORE_LIMIT));
    }
}

#!/usr/bin/env python3
"""Puts one likely porting error at a time into a copy of docs/src, and says which errors are found: by replaying the recorded lists against it, or,
with --driver, by running the differential driver with it in place of the original.

strength.py [--driver] [AREAS]   AREAS: some of the letters c (codec), p (planner), f (frozen check), r (receiver), s (sender); all of them if none
is given. --driver links the library of target/staticlib, or of CATKHIZE_LIB_DIR.
It works in a temporary folder and changes nothing here. All of it takes about an hour on two cores. (strength_port.py puts errors into the port.)"""
import os, shutil, subprocess, sys, tempfile
HERE=os.path.dirname(os.path.abspath(__file__))
ROOT=tempfile.mkdtemp(prefix='strength-')
REC=os.path.join(HERE,'..','crates','replay','data')
DRIVER='--driver' in sys.argv
only=''.join(a for a in sys.argv[1:] if a!='--driver') or None
SRC=os.path.join(HERE,'..','docs','src'); B='crates/bts136/src/'
T=B+'l3/tsar.rs'; P=B+'l3/tsar/segmentation.rs'; R=B+'link/tsar/receiver.rs'; S=B+'link/tsar/sender.rs'; Q=B+'l3/tsar/response.rs'
M=[]
def m(name,file,old,new,nth=0): M.append((name,file,old,new,nth))
# ---- codec
m('c01 version <=',T,'version.code() < ProtocolVersion::Pv1.code()','version.code() <= ProtocolVersion::Pv1.code()')
m('c02 transaction >=',T,'self.transaction_id > TRANSACTION_MASK','self.transaction_id >= TRANSACTION_MASK')
m('c03 data >=',T,'self.segment_data.len() > u8::MAX as usize','self.segment_data.len() >= u8::MAX as usize')
m('c04 encode begin seq',T,'''                if self.sequence_number != 0 {
                    return Err(Error::Field("begin_sequence_number"));
                }
                (BEGIN''','''                (BEGIN''')
m('c05 length >',T,'length >= 1 << LENGTH_BITS','length > 1 << LENGTH_BITS')
m('c06 crc24 >',T,'value >= 1 << CRC24_BITS','value > 1 << CRC24_BITS')
m('c07 services first when writing',T,'''        if let Some(length) = message_length {
            if length >= 1 << LENGTH_BITS {
                return Err(Error::Field("message_length"));
            }
            let field = (u16::from(LENGTH_PARAMETER) << LENGTH_BITS) | length;
            bytes.extend(field.to_be_bytes());
        }
        match self.kind {''','''        if let Some(length) = message_length {
            if length >= 1 << LENGTH_BITS {
                return Err(Error::Field("message_length"));
            }
        }
        let after = message_length.map(|length| ((u16::from(LENGTH_PARAMETER) << LENGTH_BITS) | length).to_be_bytes());
        if let (Some(a), SegmentKind::Begin { services: None, .. } | SegmentKind::Continue { .. } | SegmentKind::End { .. }) = (after, self.kind) { bytes.extend(a); }
        if let (Some(a), SegmentKind::Begin { services: Some(s), .. }) = (after, self.kind) {
            let field = (u16::from(SERVICES_PARAMETER) << LENGTH_BITS) | ((s.compression as u16) << COMPRESSION_SHIFT) | ((s.acknowledgment_window as u16) << WINDOW_SHIFT) | ((s.crc_status as u16) << CRC_STATUS_SHIFT);
            bytes.extend(field.to_be_bytes()); bytes.extend(a); return Ok(bytes);
        }
        match self.kind {''')
m('c08 type before protocol',T,'''    if header & PROTOCOL_MASK != 0 {
        return Err(Error::Protocol);
    }
    let kind = (header >> TYPE_SHIFT) & TYPE_MASK;
    match kind {
        RESPONSE_TYPE => return Err(Error::UnsupportedResponse),
        BEGIN_TYPE | CONTINUE_TYPE | END_TYPE => {}
        _ => return Err(Error::MessageType),
    };''','''    let kind = (header >> TYPE_SHIFT) & TYPE_MASK;
    match kind {
        RESPONSE_TYPE => return Err(Error::UnsupportedResponse),
        BEGIN_TYPE | CONTINUE_TYPE | END_TYPE => {}
        _ => return Err(Error::MessageType),
    };
    if header & PROTOCOL_MASK != 0 {
        return Err(Error::Protocol);
    }''')
m('c09 length before type',T,'''    match kind {
        RESPONSE_TYPE => return Err(Error::UnsupportedResponse),
        BEGIN_TYPE | CONTINUE_TYPE | END_TYPE => {}
        _ => return Err(Error::MessageType),
    };
    if bytes.len() < HEADER_OCTETS {
        return Err(Error::Truncated);
    }''','''    if bytes.len() < HEADER_OCTETS {
        return Err(Error::Truncated);
    }
    match kind {
        RESPONSE_TYPE => return Err(Error::UnsupportedResponse),
        BEGIN_TYPE | CONTINUE_TYPE | END_TYPE => {}
        _ => return Err(Error::MessageType),
    };''')
m('c10 decode begin seq dropped',T,'if kind == BEGIN_TYPE && sequence_number != 0 {','if false {')
m('c11 data before begin seq',T,'''    if kind == BEGIN_TYPE && sequence_number != 0 {
        return Err(Error::Field("begin_sequence_number"));
    }
    let end = HEADER_OCTETS + usize::from(bytes[2]);''','''    let end = HEADER_OCTETS + usize::from(bytes[2]);
    if bytes.len() < end { return Err(Error::Truncated); }
    if kind == BEGIN_TYPE && sequence_number != 0 {
        return Err(Error::Field("begin_sequence_number"));
    }''')
m('c12 length cut before repeat',T,'''                if message_length.is_some() {
                    return Err(Error::DuplicateParameter);
                }
                message_length =
                    Some((reader.take(OPTIONAL_WORD_OCTETS)? as u16) & ((1 << LENGTH_BITS) - 1));''','''                let v =
                    Some((reader.take(OPTIONAL_WORD_OCTETS)? as u16) & ((1 << LENGTH_BITS) - 1));
                if message_length.is_some() {
                    return Err(Error::DuplicateParameter);
                }
                message_length = v;''')
m('c13 services cut before repeat',T,'''                if services.is_some() {
                    return Err(Error::DuplicateParameter);
                }
                services = Some(decode_services(reader.take(OPTIONAL_WORD_OCTETS)? as u16)?);''','''                let w = reader.take(OPTIONAL_WORD_OCTETS)? as u16;
                if services.is_some() {
                    return Err(Error::DuplicateParameter);
                }
                services = Some(decode_services(w)?);''')
m('c14 services reserved before repeat',T,'''                if services.is_some() {
                    return Err(Error::DuplicateParameter);
                }
                services = Some(decode_services(reader.take(OPTIONAL_WORD_OCTETS)? as u16)?);''','''                let mark = reader.offset;
                if let Ok(w) = reader.take(OPTIONAL_WORD_OCTETS) { decode_services(w as u16)?; }
                reader.offset = mark;
                if services.is_some() {
                    return Err(Error::DuplicateParameter);
                }
                services = Some(decode_services(reader.take(OPTIONAL_WORD_OCTETS)? as u16)?);''')
m('c15 crc16 and crc24 both taken',T,'''                if crc.is_some() {
                    return Err(Error::DuplicateParameter);''','''                if matches!((crc, parameter), (Some(MessageCrc::Crc16(_)), CRC16_PARAMETER) | (Some(MessageCrc::Crc24(_)), CRC24_PARAMETER)) {
                    return Err(Error::DuplicateParameter);''')
m('c16 crc reserved unchecked',T,'if field & u32::from(PARAMETER_MASK) != 0 {','if false && field != 0 {')
m('c17 crc reserved one bit',T,'if field & u32::from(PARAMETER_MASK) != 0 {','if field & 7 != 0 {')
m('c18 services reserved bit',T,'if field & SERVICES_RESERVED_MASK != 0\n        ||','if')
m('c19 encryption unchecked',T,'''        || ((field >> ENCRYPTION_SHIFT) & SERVICE_FIELD_MASK) != ENCRYPTION_NONE
''','')
m('c20 compression 2..',T,'''        1 => Compression::V42Bis,
        _ => return Err(Error::Reserved),''','''        _ => Compression::V42Bis,''')
m('c21 compression 2',T,'''        1 => Compression::V42Bis,
''','''        1 | 2 => Compression::V42Bis,
''')
m('c22 window 6',T,'        5 => AcknowledgmentWindow::Exceptions,\n','        5 | 6 => AcknowledgmentWindow::Exceptions,\n')
m('c23 crc status 3',T,'        2 => CrcStatus::Crc24,\n        _ => return Err(Error::Reserved),','        _ => CrcStatus::Crc24,')
m('c24 services on Continue',T,'SERVICES_PARAMETER if kind == BEGIN_TYPE =>','SERVICES_PARAMETER if kind != END_TYPE =>')
m('c25 crc on Continue',T,'CRC16_PARAMETER | CRC24_PARAMETER if kind == END_TYPE','CRC16_PARAMETER | CRC24_PARAMETER if kind != BEGIN_TYPE')
m('c26 crc24 on Begin',T,'CRC16_PARAMETER | CRC24_PARAMETER if kind == END_TYPE','CRC16_PARAMETER | CRC24_PARAMETER if kind == END_TYPE || (kind == BEGIN_TYPE && parameter == 3)')
m('c27 length mask 11 bits',T,'as u16) & ((1 << LENGTH_BITS) - 1)','as u16) & ((1 << 11) - 1)')
m('c28 unknown refuses',T,'            _ => break,','            _ => return Err(Error::Reserved),')
m('c29 unknown skips one',T,'            _ => break,','            0 => { reader.offset += 1; }\n            _ => break,')
m('c30 data length wrong',T,'let end = HEADER_OCTETS + usize::from(bytes[2]);','let end = HEADER_OCTETS + usize::from(bytes[2] & 0x7f);')
m('c31 transaction mask',T,'transaction_id: header & TRANSACTION_MASK,','transaction_id: header & 3,')
m('c32 crc16 value 15 bits',T,'(1 << CRC16_BITS) - 1','(1 << 15) - 1')
m('c33 crc24 value 23 bits',T,'(1 << CRC24_BITS) - 1','(1 << 23) - 1')
m('c34 length before begin seq when writing',T,'''        if self.segment_data.len() > u8::MAX as usize {
            return Err(Error::Field("segment_data_length"));
        }
''','',0)
m('c35 data before transaction',T,'''        if self.transaction_id > TRANSACTION_MASK {
            return Err(Error::Field("transaction_id"));
        }
        if self.segment_data.len() > u8::MAX as usize {
            return Err(Error::Field("segment_data_length"));
        }
''','''        if self.segment_data.len() > u8::MAX as usize {
            return Err(Error::Field("segment_data_length"));
        }
        if self.transaction_id > TRANSACTION_MASK {
            return Err(Error::Field("transaction_id"));
        }
''')
m('c36 transaction before version',T,'''        validate_version(version)?;
        if self.transaction_id > TRANSACTION_MASK {
            return Err(Error::Field("transaction_id"));
        }
''','''        if self.transaction_id > TRANSACTION_MASK {
            return Err(Error::Field("transaction_id"));
        }
        validate_version(version)?;
''')
m('c37 encode crc status shift',T,'((services.crc_status as u16) << CRC_STATUS_SHIFT)','(services.crc_status as u16)')
m('c38 version after first octet',T,'''    validate_version(version)?;
    let header = *bytes.first().ok_or(Error::Truncated)?;''','''    let header = *bytes.first().ok_or(Error::Truncated)?;
    validate_version(version)?;''')
# ---- planner
m('p01 ceiling >= plan',P,'if payload_budget_octets > MAX_DATA_PAYLOAD_OCTETS {','if payload_budget_octets >= MAX_DATA_PAYLOAD_OCTETS {',1)
m('p02 ceiling >= frozen',P,'if payload_budget_octets > MAX_DATA_PAYLOAD_OCTETS {','if payload_budget_octets >= MAX_DATA_PAYLOAD_OCTETS {',0)
m('p03 unsegmented <',P,'message.len() <= payload_budget_octets','message.len() < payload_budget_octets')
m('p04 unsegmented before budget',P,'''    if payload_budget_octets > MAX_DATA_PAYLOAD_OCTETS {
        return Err(PlanningError::PayloadBudget);
    }
    // TIA''','''    if message.len() <= payload_budget_octets {
        return Ok(MessagePlan::Unsegmented(message.to_vec()));
    }
    if payload_budget_octets > MAX_DATA_PAYLOAD_OCTETS {
        return Err(PlanningError::PayloadBudget);
    }
    // TIA''')
m('p05 header >=',P,'minimum_begin_octets > payload_budget_octets','minimum_begin_octets >= payload_budget_octets')
m('p06 later min dropped',P,'        .min(MAX_SEGMENT_DATA_OCTETS);\n    // TIA',';\n    // TIA')
m('p07 first min dropped',P,'(payload_budget_octets - begin_octets).min(MAX_SEGMENT_DATA_OCTETS)','(payload_budget_octets - begin_octets)')
m('p08 4094',P,'(1 << LENGTH_BITS) - 1;','(1 << LENGTH_BITS) - 2;')
m('p09 length >=',P,'payload_budget_octets > minimum_begin_octets + OPTIONAL_WORD_OCTETS','payload_budget_octets >= minimum_begin_octets + OPTIONAL_WORD_OCTETS')
m('p10 255 segments',P,'.filter(|count| *count <= MAX_SEGMENTS)','.filter(|count| *count < MAX_SEGMENTS)')
m('p11 257 segments',P,'.filter(|count| *count <= MAX_SEGMENTS)','.filter(|count| *count <= MAX_SEGMENTS + 1)')
m('p12 services always',P,'(acknowledgment_window != AcknowledgmentWindow::Prohibited).then_some','(true).then_some')
m('p13 div floor',P,'.div_ceil(later_capacity)','.div_ceil(later_capacity.max(2) - 1)')
m('p14 begin filled first to 254',P,'const MAX_SEGMENT_DATA_OCTETS: usize = u8::MAX as usize;','const MAX_SEGMENT_DATA_OCTETS: usize = 254;')
m('p15 21 before codec',P,'    let minimum_begin_octets = begin.encode','    if payload_budget_octets <= 3 { return Err(PlanningError::HeaderCapacity); }\n    let minimum_begin_octets = begin.encode')
m('f01 count 1',P,'(2..=MAX_SEGMENTS).contains','(1..=MAX_SEGMENTS).contains')
m('f02 count 255',P,'(2..=MAX_SEGMENTS).contains','(2..MAX_SEGMENTS).contains')
m('f03 count 257',P,'(2..=MAX_SEGMENTS).contains','(2..=MAX_SEGMENTS+1).contains')
m('f04 compression unchecked',P,'services.compression != Compression::None || ','')
m('f05 crc status unchecked',P,' || services.crc_status != CrcStatus::None','')
m('f06 budget >=',P,'if encoded.len() > payload_budget_octets {','if encoded.len() >= payload_budget_octets {')
m('f07 transaction unchecked',P,'segment.transaction_id != transaction_id || ','')
m('f08 sequence unchecked',P,' || segment.sequence_number as usize != index\n','\n')
m('f09 continue last',P,'if index > 0 && index + 1 < segments.len() =>','if index > 0 =>')
m('f10 continue first',P,'if index > 0 && index + 1 < segments.len() =>','if index + 1 < segments.len() =>')
m('f11 crc allowed',P,'crc: None,\n                } if index','crc: _,\n                } if index')
m('f12 end anywhere',P,'} if index + 1 == segments.len() => message_length,','} => message_length,')
m('f13 stated unchecked',P,'if length.is_some_and(|length| usize::from(length) != message.len()) {','if false && length.is_some() {')
m('f14 stated checked on Begin only',P,'if length.is_some_and(|length| usize::from(length) != message.len()) {','if index == 0 && length.is_some_and(|length| usize::from(length) != message.len()) {')
m('f15 data unchecked',P,'if message.get(offset..end) != Some(segment.segment_data.as_slice()) {','if message.get(offset..end).is_none() {')
m('f16 total unchecked',P,'if offset != message.len() {','if false {')
m('f17 budget before codec',P,'''            let encoded = segment.encode(version).map_err(PlanningError::Codec)?;
''','''            if segment.segment_data.len() + 3 > payload_budget_octets { return Err(PlanningError::PayloadBudget); }
            let encoded = segment.encode(version).map_err(PlanningError::Codec)?;
''')
m('f18 begin test after codec',P,'''        let transaction_id = segments[0].transaction_id;
''','''        let transaction_id = segments[0].transaction_id;
        segments[0].encode(version).map_err(PlanningError::Codec)?;
''')
m('f19 all codec first',P,'''        let mut offset = 0usize;
''','''        for s in &segments { s.encode(version).map_err(PlanningError::Codec)?; }
        let mut offset = 0usize;
''')
m('f20 window of default',P,'acknowledgment_window: services.acknowledgment_window,','acknowledgment_window: AcknowledgmentWindow::Prohibited,')
m('f21 22 before 20',P,'''        if payload_budget_octets > MAX_DATA_PAYLOAD_OCTETS {
            return Err(PlanningError::PayloadBudget);
        }
        if !(2''','''        if !(2..=MAX_SEGMENTS).contains(&segments.len()) {
            return Err(PlanningError::SegmentCount);
        }
        if payload_budget_octets > MAX_DATA_PAYLOAD_OCTETS {
            return Err(PlanningError::PayloadBudget);
        }
        if !(2''')
m('f22 empty segment refused',P,'            offset = end;\n','            if segment.segment_data.is_empty() && index > 0 { return Err(PlanningError::FrozenPlan); }\n            offset = end;\n')
m('f23 services after segment 0 codec',P,'if services.compression != Compression::None || services.crc_status != CrcStatus::None {','segments[0].encode(version).map_err(PlanningError::Codec)?;\n        if services.compression != Compression::None || services.crc_status != CrcStatus::None {')
m('f24 data before stated length is 23 too but budget first',P,'''            if encoded.len() > payload_budget_octets {
                return Err(PlanningError::PayloadBudget);
            }
            if segment.transaction_id''','''            if segment.transaction_id''')
# ---- receiver
m('r01 clock <=',R,'if now < self.last_monotonic_ms {','if now <= self.last_monotonic_ms {')
m('r02 peer unchecked',R,'if peer != self.peer {','if peer.value != self.peer.value {')
m('r03 peer kind',R,'if peer != self.peer {','if (peer.width, peer.value) != (self.peer.width, self.peer.value) {')
m('r04 protocol unchecked',R,'if protocol != self.protocol {','if false && protocol != self.protocol {')
m('r05 transaction before protocol',R,'''        if protocol != self.protocol {
            return Err(ReceiveError::Service);
        }
        let segment = &decoded.segment;
        if segment.transaction_id != self.transaction_id {
            return Err(ReceiveError::TransactionId);
        }
''','''        let segment = &decoded.segment;
        if segment.transaction_id != self.transaction_id {
            return Err(ReceiveError::TransactionId);
        }
        if protocol != self.protocol {
            return Err(ReceiveError::Service);
        }
''')
m('r06 unparsed before codec',R,'        segment.encode(self.version).map_err(ReceiveError::Codec)?;\n','        if !decoded.unparsed_octets.is_empty() { return Err(ReceiveError::UnparsedSegment); }\n        segment.encode(self.version).map_err(ReceiveError::Codec)?;\n')
m('r07 closed before unparsed',R,'        if !decoded.unparsed_octets.is_empty() {\n','        if !matches!(self.state, ReceiverState::AwaitingBegin | ReceiverState::Receiving | ReceiverState::Complete) { return Err(ReceiveError::Closed); }\n        if !decoded.unparsed_octets.is_empty() {\n')
m('r08 begin required unchecked',R,'if self.state == ReceiverState::AwaitingBegin\n            &&','if false &&')
m('r09 overflow before begin required',R,'        if self.state == ReceiverState::AwaitingBegin\n','        now.checked_add(REASSEMBLY_MS).ok_or(ReceiveError::TimeOverflow)?;\n        if self.state == ReceiverState::AwaitingBegin\n')
m('r10 late >=',R,'.is_some_and(|cutoff| now > cutoff)','.is_some_and(|cutoff| now >= cutoff)')
m('r11 late before overflow',R,'''        let deadline = now
            .checked_add(REASSEMBLY_MS)
            .ok_or(ReceiveError::TimeOverflow)?;
''','''        if self.services.acknowledgment_window != AcknowledgmentWindow::Prohibited && self.deadline_monotonic_ms.is_some_and(|c| now > c) { return Err(ReceiveError::TimerDue); }
        let deadline = now
            .checked_add(REASSEMBLY_MS)
            .ok_or(ReceiveError::TimeOverflow)?;
''')
m('r12 overflow saturates',R,'''            .checked_add(REASSEMBLY_MS)
            .ok_or(ReceiveError::TimeOverflow)?;''','''            .saturating_add(REASSEMBLY_MS);''')
m('r13 advance >',R,'.is_some_and(|deadline| now >= deadline)','.is_some_and(|deadline| now > deadline)')
m('r14 prohibited late gives 37',R,'''                self.advance(now)?;
                return Err(ReceiveError::Closed);''','''                return Err(ReceiveError::TimerDue);''')
m('r15 prohibited late no advance',R,'''                self.advance(now)?;
                return Err(ReceiveError::Closed);''','''                return Err(ReceiveError::Closed);''')
m('r16 37 takes reading',R,'            return Err(ReceiveError::TimerDue);\n','            self.last_monotonic_ms = now;\n            return Err(ReceiveError::TimerDue);\n')
m('r17 reading taken first',R,'        let segment = &decoded.segment;\n','        let segment = &decoded.segment;\n        self.last_monotonic_ms = now;\n')
m('r18 reading never taken by receive',R,'        self.last_monotonic_ms = now;\n        let index','        let index')
m('r19 repeat compares data only',R,'if existing != segment {','if existing.segment_data != segment.segment_data {')
m('r20 repeat compares kind tag only',R,'if existing != segment {','if existing.segment_data != segment.segment_data || std::mem::discriminant(&existing.kind) != std::mem::discriminant(&segment.kind) {')
m('r21 repeat absent services equal default',R,'if existing != segment {','''if { let norm = |s: &Segment| { let mut s = s.clone(); if let SegmentKind::Begin { services, .. } = &mut s.kind { *services = Some(services.unwrap_or_default()); } s }; norm(existing) != norm(segment) } {''')
m('r22 repeat lengths only',R,'if existing != segment {','if existing.segment_data.len() != segment.segment_data.len() || existing.kind != segment.kind {')
m('r23 size mismatch swapped',R,'if existing.segment_data.len() != segment.segment_data.len() {\n                    Status::DuplicateSizeMismatch','if existing.segment_data.len() == segment.segment_data.len() {\n                    Status::DuplicateSizeMismatch')
m('r24 repeat status',R,'let status = if self.state == ReceiverState::Complete {','let status = if false {')
m('r25 repeat keeps deadline',R,'''            if self.state == ReceiverState::Receiving {
                self.deadline_monotonic_ms = Some(deadline);
            }
''','')
m('r26 repeat sets deadline when complete',R,'''            if self.state == ReceiverState::Receiving {
                self.deadline''','''            if true {
                self.deadline''')
m('r27 complete 38 keeps reading',R,'''        self.last_monotonic_ms = now;
        let index = usize::from(segment.sequence_number);
''','''        let index = usize::from(segment.sequence_number);
        if self.state == ReceiverState::Complete && self.segments[index].is_none() { return Err(ReceiveError::Closed); }
        self.last_monotonic_ms = now;
''')
m('r28 continue 255 allowed',R,'&& index == SEQUENCE_COUNT - 1 {','&& index == SEQUENCE_COUNT {')
m('r29 continue 254 refused',R,'&& index == SEQUENCE_COUNT - 1 {','&& index >= SEQUENCE_COUNT - 2 {')
m('r30 services not taken on failure',R,'                    let mut result = self.fail(status);','                    self.services = OptionalServices::default();\n                    let mut result = self.fail(status);')
m('r31 multiple is compression',R,'(true, true) => Status::MultipleServicesUnsupported,','(true, true) => Status::CompressionUnsupported,')
m('r32 support > 5',R,'self.version.code() >= ProtocolVersion::Pv5.code()','self.version.code() > ProtocolVersion::Pv5.code()')
m('r33 support any status',R,'if status == Status::MultipleServicesUnsupported\n                        &&','if')
m('r34 support bits',R,'encryption: true,','encryption: false,')
m('r35 crc on End ignored',R,'if crc.is_some() {','if false && crc.is_some() {')
m('r36 crc on End after structure',R,'''                if crc.is_some() {
                    return Ok(self.fail(Status::CrcSelectionUnsupported));
                }
''','''                if crc.is_some() && !self.end_sequence.is_some_and(|end| end != segment.sequence_number) && !self.segments[index + 1..].iter().any(Option::is_some) {
                    return Ok(self.fail(Status::CrcSelectionUnsupported));
                }
''')
m('r37 second end allowed',R,'.is_some_and(|end| end != segment.sequence_number)','.is_some_and(|end| end < segment.sequence_number)')
m('r38 end below held',R,'|| self.segments[index + 1..].iter().any(Option::is_some)','')
m('r39 past end allowed',R,'.is_some_and(|end| segment.sequence_number > end)','.is_some_and(|end| segment.sequence_number > end && false)')
m('r40 length clash unchecked',R,'.is_some_and(|existing| existing != length)','.is_some_and(|existing| existing != length && false)')
m('r41 stated length too long unchecked',R,'''.is_some_and(|length| usize::from(length) > self.maximum_message_octets)
''','''.is_some_and(|length| usize::from(length) > self.maximum_message_octets && false)
''')
m('r42 stated length >= maximum',R,'usize::from(length) > self.maximum_message_octets','usize::from(length) >= self.maximum_message_octets')
m('r43 maximum >=',R,'''|| segment.segment_data.len()
                > self''','''|| segment.segment_data.len()
                >= self''')
m('r44 passes stated length unchecked',R,'self.stored_octets + segment.segment_data.len() > usize::from(length)','self.stored_octets + segment.segment_data.len() > usize::from(length) && false')
m('r45 passes stated >=',R,'self.stored_octets + segment.segment_data.len() > usize::from(length)','self.stored_octets + segment.segment_data.len() >= usize::from(length)')
m('r46 length error before too long',R,'''        if self
            .message_length
            .is_some_and(|length| usize::from(length) > self''','''        if self.message_length.is_some_and(|length| self.stored_octets + segment.segment_data.len() > usize::from(length)) { return Ok(self.fail(Status::MessageLengthError)); }
        if self
            .message_length
            .is_some_and(|length| usize::from(length) > self''')
m('r47 completion length unchecked',R,'.is_some_and(|length| usize::from(length) != self.stored_octets)','.is_some_and(|length| usize::from(length) != self.stored_octets && false)')
m('r48 complete keeps deadline',R,'''            self.state = ReceiverState::Complete;
            self.deadline_monotonic_ms = None;
''','''            self.state = ReceiverState::Complete;
''')
m('r49 timeout map no next',R,'(highest + 1).min(SEQUENCE_COUNT - 1)','highest')
m('r50 timeout map two more',R,'(highest + 1).min(SEQUENCE_COUNT - 1)','(highest + 2).min(SEQUENCE_COUNT - 1)')
m('r51 timeout map bound 254',R,'(highest + 1).min(SEQUENCE_COUNT - 1)','(highest + 1).min(SEQUENCE_COUNT - 2)')
m('r52 end ignored in map',R,'let last = self.end_sequence.map(usize::from).unwrap_or_else(|| {','let last = None::<usize>.unwrap_or_else(|| {')
m('r53 failure map next',R,'let response = self.response(status, false);','let response = self.response(status, true);')
m('r54 wipe before map',R,'let response = self.response(status, false);','self.clear_data();\n        let response = self.response(status, false);')
m('r55 failure keeps deadline',R,'''        self.state = ReceiverState::Failed(status);
        self.deadline_monotonic_ms = None;
''','''        self.state = ReceiverState::Failed(status);
''')
m('r56 stored not reset',R,'''        self.segments.fill(None);
        self.stored_octets = 0;
''','''        self.segments.fill(None);
''')
m('r57 cancel complete',R,'''            ReceiverState::AwaitingBegin | ReceiverState::Receiving
        ) {''','''            ReceiverState::AwaitingBegin | ReceiverState::Receiving | ReceiverState::Complete
        ) {''')
m('r58 refused cancel takes reading',R,'''    pub fn cancel(&mut self, now: u64) -> Result<(), ReceiveError> {
        self.clock(now)?;
''','''    pub fn cancel(&mut self, now: u64) -> Result<(), ReceiveError> {
        self.clock(now)?;
        self.last_monotonic_ms = now;
''')
m('r59 cancel keeps reading',R,'''        self.last_monotonic_ms = now;
        self.deadline_monotonic_ms = None;
        self.state = ReceiverState::Canceled;''','''        self.deadline_monotonic_ms = None;
        self.state = ReceiverState::Canceled;''')
m('r60 cancel keeps deadline',R,'''        self.deadline_monotonic_ms = None;
        self.state = ReceiverState::Canceled;''','''        self.state = ReceiverState::Canceled;''')
m('r61 advance closed keeps reading',R,'''        self.clock(now)?;
        self.last_monotonic_ms = now;
        if !self''','''        self.clock(now)?;
        if matches!(self.state, ReceiverState::AwaitingBegin | ReceiverState::Receiving) { self.last_monotonic_ms = now; }
        if !self''')
m('r62 advance complete keeps reading',R,'''        self.clock(now)?;
        self.last_monotonic_ms = now;
        if !self''','''        self.clock(now)?;
        if self.state != ReceiverState::Complete { self.last_monotonic_ms = now; }
        if !self''')
m('r63 advance exceptions silent',R,'Ok(self.response(Status::InterSegmentTimeout, true))','Ok(self.response(Status::InterSegmentTimeout, true).filter(|_| self.services.acknowledgment_window != AcknowledgmentWindow::Exceptions))')
m('r64 timeout restarts deadline',R,'''        self.deadline_monotonic_ms = None;
        if self.services''','''        self.deadline_monotonic_ms = now.checked_add(REASSEMBLY_MS);
        if self.services''')
m('r65 prohibited timeout stays',R,'''            self.state = ReceiverState::Expired;
''','')
m('r66 exceptions answers completion',R,'AcknowledgmentWindow::Prohibited | AcknowledgmentWindow::Exceptions\n','AcknowledgmentWindow::Prohibited\n')
m('r67 every8 is 16',R,'AcknowledgmentWindow::Every8 => Some(WINDOW_EIGHT)','AcknowledgmentWindow::Every8 => Some(WINDOW_SIXTEEN)')
m('r68 every16 is 8',R,'AcknowledgmentWindow::Every16 => Some(WINDOW_SIXTEEN)','AcknowledgmentWindow::Every16 => Some(WINDOW_EIGHT)')
m('r69 period without +1',R,'(usize::from(segment.sequence_number) + 1) % window','(usize::from(segment.sequence_number)) % window')
m('r70 period counts held',R,'(usize::from(segment.sequence_number) + 1) % window','self.segments.iter().flatten().count() % window')
m('r71 end not answered',R,"                || matches!(segment.kind, SegmentKind::End { .. })\n",'')
m('r72 received only when End repeats',R,'(status == Status::Received\n                ||','(')
m('r73 last is periodic',R,'            _ => None,\n        };\n        let enabled','            AcknowledgmentWindow::Last => Some(WINDOW_SIXTEEN),\n            _ => None,\n        };\n        let enabled')
m('r74 failing End sets end',R,'''                if crc.is_some() {
''','''                if index != 0 { self.end_sequence = Some(segment.sequence_number).filter(|_| crc.is_some()).or(self.end_sequence); }
                if crc.is_some() {
''')
m('r75 overflow only where a deadline is set',R,'''        let deadline = now
            .checked_add(REASSEMBLY_MS)
            .ok_or(ReceiveError::TimeOverflow)?;
''','''        if self.state != ReceiverState::Complete { now.checked_add(REASSEMBLY_MS).ok_or(ReceiveError::TimeOverflow)?; }
        let deadline = now.saturating_add(REASSEMBLY_MS);
''')
m('r76 overflow only for new',R,'''        let deadline = now
            .checked_add(REASSEMBLY_MS)
            .ok_or(ReceiveError::TimeOverflow)?;
''','''        if self.segments[usize::from(segment.sequence_number)].is_none() { now.checked_add(REASSEMBLY_MS).ok_or(ReceiveError::TimeOverflow)?; }
        let deadline = now.saturating_add(REASSEMBLY_MS);
''')
m('r77 completion length error before held',R,'''        self.stored_octets += segment.segment_data.len();
        self.segments[index] = Some(segment.clone());
''','''        if matches!(segment.kind, SegmentKind::End { .. }) && (0..index).all(|i| self.segments[i].is_some()) && self.message_length.is_some_and(|length| usize::from(length) != self.stored_octets + segment.segment_data.len()) { return Ok(self.fail(Status::MessageLengthError)); }
        self.stored_octets += segment.segment_data.len();
        self.segments[index] = Some(segment.clone());
''')
m('r78 length clash before past end',R,'''        if self
            .end_sequence
            .is_some_and(|end| segment.sequence_number > end)''','''        if let (Some(l), Some(e)) = (length, self.message_length) && l != e { return Ok(self.fail(Status::MessageLengthError)); }
        if self
            .end_sequence
            .is_some_and(|end| segment.sequence_number > end)''')
m('r79 too long before clash',R,'        if let Some(length) = length {\n            if self\n','        if segment.segment_data.len() > self.maximum_message_octets.saturating_sub(self.stored_octets) { return Ok(self.fail(Status::MessageTooLong)); }\n        if let Some(length) = length {\n            if self\n')
m('r80 continue 255 after held only',R,'        if matches!(segment.kind, SegmentKind::Continue { .. }) && index','        if matches!(segment.kind, SegmentKind::Continue { .. }) && self.end_sequence.is_none() && index')
m('r81 new segment keeps deadline',R,'        self.deadline_monotonic_ms = Some(deadline);\n        Ok(Reception','        self.deadline_monotonic_ms = self.deadline_monotonic_ms.or(Some(deadline));\n        Ok(Reception')
m('r82 Begin compression checked before repeat',R,'        if let Some(existing) = &self.segments[index] {','        if let SegmentKind::Begin { services: Some(s), .. } = segment.kind && s.compression != Compression::None && self.state == ReceiverState::Receiving { return Ok(self.fail(Status::CompressionUnsupported)); }\n        if let Some(existing) = &self.segments[index] {')
m('r83 End crc checked before repeat',R,'        if let Some(existing) = &self.segments[index] {','        if let SegmentKind::End { crc: Some(_), .. } = segment.kind && self.state == ReceiverState::Receiving { return Ok(self.fail(Status::CrcSelectionUnsupported)); }\n        if let Some(existing) = &self.segments[index] {')
m('r84 CarrierSpecific one bit',R,'raw & SEGMENTED_CARRIER_BITS == SEGMENTED_CARRIER_BITS)','raw & SEGMENTED_CARRIER_BITS != 0)')
m('r85 identity value = 2^width',R,'value == 0 || value >= 1 << width','value == 0 || value > 1 << width')
m('r86 identity 0',R,'value == 0 || value >= 1 << width','value >= 1 << width')
m('r87 new receiver version unchecked',R,'        .encode(version)\n        .map_err(ReceiveError::Codec)?;','        .encode(version).ok();')
m('r88 response transaction',R,'transaction_id: self.transaction_id,\n            status,','transaction_id: 0,\n            status,')
m('r89 message without end',R,'let message = self.segments[..=usize::from(end)]','let message = self.segments[..usize::from(end)]')
m('r90 advance late response Continuing',R,'Status::InterSegmentTimeout, true','Status::Continuing, true')
# ---- sender
m('s01 clock <=',S,'if now < self.last_monotonic_ms {','if now <= self.last_monotonic_ms {')
m('s02 submitted foreign',S,'if self.state != SenderState::Prepared || !self.owns_current(submission) {','if self.state != SenderState::Prepared {')
m('s03 submitted any state',S,'if self.state != SenderState::Prepared || !self.owns_current(submission) {','if !self.owns_current(submission) {')
m('s04 queued below prepared',S,'queued_monotonic_ms < submission.prepared_monotonic_ms\n            || ','')
m('s05 queued <= prepared',S,'queued_monotonic_ms < submission.prepared_monotonic_ms','queued_monotonic_ms <= submission.prepared_monotonic_ms')
m('s06 queued > observed',S,'''
            || queued_monotonic_ms > observed_monotonic_ms
''','''
''')
m('s07 queued below last reading',S,'queued_monotonic_ms < submission.prepared_monotonic_ms\n','queued_monotonic_ms < self.last_monotonic_ms\n')
m('s08 prohibited late >',S,'.is_some_and(|deadline| queued_monotonic_ms >= deadline)','.is_some_and(|deadline| queued_monotonic_ms > deadline)')
m('s09 prohibited late by observed',S,'.is_some_and(|deadline| queued_monotonic_ms >= deadline)','.is_some_and(|deadline| observed_monotonic_ms >= deadline)')
m('s10 prohibited late no advance',S,'            self.advance(observed_monotonic_ms)?;\n            return Err(Error::ReceiptTime);','            return Err(Error::ReceiptTime);')
m('s11 late any window',S,'''        if self.plan.acknowledgment_window() == AcknowledgmentWindow::Prohibited
            && self
                .deadline_monotonic_ms
                .is_some_and(|deadline| queued''','''        if true
            && self
                .deadline_monotonic_ms
                .is_some_and(|deadline| queued''')
m('s12 last ignores pending',S,'.any(|candidate| candidate != index && self.needs_submission(candidate));','.any(|candidate| candidate > index && self.needs_submission(candidate));')
m('s13 last is last index',S,'let last = !(0..self.submitted.len())\n            .any(|candidate| candidate != index && self.needs_submission(candidate));','let last = index + 1 == self.submitted.len();')
m('s14 prohibited last has deadline',S,'if last && self.plan','if false && last && self.plan')
m('s15 deadline from observed',S,'''                    queued_monotonic_ms
                        .checked_add''','''                    observed_monotonic_ms
                        .checked_add''')
m('s16 overflow saturates',S,'''                        .checked_add(SEGMENT_INTERVAL_MS)
                        .ok_or(Error::TimeOverflow)?,''','''                        .saturating_add(SEGMENT_INTERVAL_MS),''')
m('s17 retry kept',S,'''        self.retry[index] = false;
        self.layer3''','''        self.layer3''')
m('s18 no closing advance in submitted',S,'''        self.state = SenderState::AwaitingAccept;
        self.advance(observed_monotonic_ms)''','''        self.state = SenderState::AwaitingAccept;
        self.last_monotonic_ms = observed_monotonic_ms;
        Ok(self.state)''')
m('s19 accepted no advance',S,'''        self.advance(now)?;
        if self.state != SenderState::AwaitingAccept || !self.owns_current(submission) {
            return Err(Error::StaleSubmission);
        }
        self.current = None;''','''        self.last_monotonic_ms = now;
        self.current = None;''')
m('s20 accepted at deadline taken',S,'''        self.advance(now)?;
        if self.state != SenderState::AwaitingAccept || !self.owns_current(submission) {
            return Err(Error::StaleSubmission);
        }
        self.current = None;''','''        if self.deadline_monotonic_ms != Some(now) { self.advance(now)?; } else { self.last_monotonic_ms = now; }
        if self.state != SenderState::AwaitingAccept || !self.owns_current(submission) {
            return Err(Error::StaleSubmission);
        }
        self.current = None;''')
m('s21 lower_failed no advance',S,'''        self.advance(now)?;
        if self.state != SenderState::AwaitingAccept || !self.owns_current(submission) {
            return Err(Error::StaleSubmission);
        }
        self.finish''','''        self.last_monotonic_ms = now;
        self.finish''')
m('s22 accepted foreign',S,'if self.state != SenderState::AwaitingAccept || !self.owns_current(submission) {','if self.state != SenderState::AwaitingAccept {',0)
m('s23 prohibited not completed',S,'self.finish(SenderState::Complete(Completion::LowerLayerAccepted));','')
m('s24 peer after service',S,'''        if peer != self.peer {
            return Err(Error::Peer);
        }
        if protocol != self.protocol {
            return Err(Error::Service);
        }
''','''        if protocol != self.protocol {
            return Err(Error::Service);
        }
        if peer != self.peer {
            return Err(Error::Peer);
        }
''')
m('s25 validate before unparsed',S,'        if !decoded.unparsed_bits.is_empty() {','        decoded.response.validate(self.version).map_err(Error::Codec)?;\n        if !decoded.unparsed_bits.is_empty() {')
m('s26 transaction before codec',S,'''        response.validate(self.version).map_err(Error::Codec)?;
        if response.transaction_id != self.transaction_id {
            return Err(Error::TransactionId);
        }
''','''        if response.transaction_id != self.transaction_id {
            return Err(Error::TransactionId);
        }
        response.validate(self.version).map_err(Error::Codec)?;
''')
m('s27 prohibited before transaction',S,'''        if response.transaction_id != self.transaction_id {
            return Err(Error::TransactionId);
        }
''','''        if self.plan.acknowledgment_window() == AcknowledgmentWindow::Prohibited { return Err(Error::ResponsesProhibited); }
        if response.transaction_id != self.transaction_id {
            return Err(Error::TransactionId);
        }
''')
m('s28 43 unchecked',S,'if !self.submitted.iter().any(|value| *value) {','if false {')
m('s29 43 asks all',S,'if !self.submitted.iter().any(|value| *value) {','if !self.submitted[0] && self.submitted.len() > 2 {')
m('s30 set past count ignored',S,'&& !self.submitted.get(index).copied().unwrap_or(false)','&& !self.submitted.get(index).copied().unwrap_or(true)')
m('s31 48 unchecked',S,'if response.acknowledgments.received(index as u8) == Some(true)\n','if false && response.acknowledgments.received(index as u8) == Some(true)\n')
m('s32 Received needs not all submitted',S,'(!self.submitted.iter().all(|value| *value)\n                || ','(')
m('s33 Received with clear entry',S,'(!self.submitted.iter().all(|value| *value)\n                || (0..self.submitted.len())\n                    .any(|index| response.acknowledgments.received(index as u8) == Some(false)))','(!self.submitted.iter().all(|value| *value))')
m('s34 Received needs whole map',S,'.any(|index| response.acknowledgments.received(index as u8) == Some(false)))','.any(|index| response.acknowledgments.received(index as u8) != Some(true)))')
m('s35 late >=',S,'.is_some_and(|deadline| now > deadline)','.is_some_and(|deadline| now >= deadline)')
m('s36 late no advance',S,'''            self.advance(now)?;
            if self.state.closed() {
                return Err(Error::Closed);
            }
''','')
m('s37 late closed goes on',S,'''            self.advance(now)?;
            if self.state.closed() {
                return Err(Error::Closed);
            }
''','''            self.advance(now)?;
            if self.state.closed() {
                return Ok(self.state);
            }
''')
m('s38 unreported keeps acknowledged',S,'''                    self.acknowledged[index] = match response.acknowledgments.received(index as u8)
                    {
                        Some(true) => Acknowledged::Received,
                        Some(false) => Acknowledged::Missing,
                        None => Acknowledged::Unreported,''','''                    self.acknowledged[index] = match response.acknowledgments.received(index as u8)
                    {
                        Some(true) => Acknowledged::Received,
                        Some(false) => Acknowledged::Missing,
                        None => self.acknowledged[index],''')
m('s39 missing keeps acknowledged',S,'                        Some(false) => Acknowledged::Missing,\n','                        Some(false) => if self.acknowledged[index] == Acknowledged::Received { Acknowledged::Received } else { Acknowledged::Missing },\n')
m('s40 Continuing retries unreported',S,'''                            Acknowledged::Unreported
                                if response.status == Status::InterSegmentTimeout =>''','''                            Acknowledged::Unreported
                                if true =>''')
m('s41 Timeout leaves unreported',S,'''                            Acknowledged::Unreported
                                if response.status == Status::InterSegmentTimeout =>''','''                            Acknowledged::Unreported
                                if false =>''')
m('s42 received keeps retry',S,'Acknowledged::Received => self.retry[index] = false,','Acknowledged::Received => {}')
m('s43 missing not retried on Continuing',S,'Acknowledged::Missing => self.retry[index] = true,','Acknowledged::Missing => self.retry[index] |= response.status == Status::InterSegmentTimeout,')
m('s44 marks unsubmitted too',S,'                    if self.submitted[index] {\n                        match','                    if true {\n                        match')
m('s45 last asked again never',S,'''                    let last = self.retry.len() - 1;
                    self.retry[last] = true;
                }
                if self.state''','''                }
                if self.state''')
m('s46 last asked again on Timeout only',S,'''                        || self.deadline_monotonic_ms.is_none())''','''                        )''')
m('s47 last asked again without deadline only',S,'''(response.status == Status::InterSegmentTimeout
                        || self''','''(self''')
m('s48 last asked again always',S,'''                    && (response.status == Status::InterSegmentTimeout
                        || self.deadline_monotonic_ms.is_none())
''','')
m('s49 awaiting accept prepares',S,'                if self.state != SenderState::AwaitingAccept {\n                    self.prepare_next(now);\n                }\n            }\n            Status::CrcError','                {\n                    self.prepare_next(now);\n                }\n            }\n            Status::CrcError')
m('s50 crc error retries all',S,'''                    if self.submitted[index] {
                        self.retry[index] = true;
                    }
                    self''','''                    self.retry[index] = true;
                    self''')
m('s51 crc error keeps acknowledged',S,'                    self.acknowledged[index] = Acknowledged::Unreported;\n','')
m('s52 crc error in awaiting accept prepares',S,'''                if self.state != SenderState::AwaitingAccept {
                    self.prepare_next(now);
                }
            }
            status''','''                {
                    self.prepare_next(now);
                }
            }
            status''')
m('s53 no closing advance in response',S,'''        self.advance(now)
    }
    pub fn cancel''','''        self.last_monotonic_ms = now;
        Ok(self.state)
    }
    pub fn cancel''')
m('s54 cancel no advance',S,'''        self.advance(now)?;
        if !self.state.closed() {
            self.finish''','''        self.check_clock(now)?;
        self.last_monotonic_ms = now;
        if !self.state.closed() {
            self.finish''')
m('s55 cancel closed refuses',S,'''        self.advance(now)?;
        if !self.state.closed() {
            self.finish''','''        if self.state.closed() { return Err(Error::Closed); }
        self.advance(now)?;
        if !self.state.closed() {
            self.finish''')
m('s56 cancel closes closed',S,'''        if !self.state.closed() {
            self.finish(SenderState::Cancelled);
        }''','''        self.finish(SenderState::Cancelled);''')
m('s57 exceptions completes in any state',S,'if self.state == SenderState::AwaitingResponse && !self.has_pending() =>','if true =>')
m('s58 exceptions never completes',S,'if self.state == SenderState::AwaitingResponse && !self.has_pending() =>','if false =>')
m('s59 advance marks all',S,'''                    if let Some(current) = &self.current {
                        self.retry[usize::from(current.segment.sequence_number)] = true;
                    } else {''','''                    if let Some(current) = &self.current {
                        self.retry[usize::from(current.segment.sequence_number)] = true;
                    }
                    {''')
m('s60 advance marks unsubmitted only current',S,'self.retry[usize::from(current.segment.sequence_number)] = true;','let _ = current;')
m('s61 advance ignores acknowledged',S,'if *acknowledged != Acknowledged::Received {','if true || *acknowledged != Acknowledged::Received {')
m('s62 advance last not asked',S,'''                        if !self.has_pending() {
                            let last = self.retry.len() - 1;
                            self.retry[last] = true;
                        }
''','')
m('s63 advance keeps deadline',S,'''                    self.deadline_monotonic_ms = None;
                    self.prepare_next(now);''','''                    self.prepare_next(now);''')
m('s64 advance closed keeps reading',S,'''        self.last_monotonic_ms = now;
        Ok(self.state)
    }
    /// Supply actual''','''        if !self.state.closed() { self.last_monotonic_ms = now; }
        Ok(self.state)
    }
    /// Supply actual''')
m('s65 advance >',S,'.is_some_and(|deadline| now >= deadline)','.is_some_and(|deadline| now > deadline)')
m('s66 never retained',S,'let retain = self.state == SenderState::Prepared\n','let retain = false && self.state == SenderState::Prepared\n')
m('s67 retained from awaiting accept',S,'let retain = self.state == SenderState::Prepared\n            && self','let retain = self')
m('s68 retained whatever is next',S,'.is_some_and(|current| Some(usize::from(current.segment.sequence_number)) == next);','.is_some_and(|_| true);')
m('s69 retained gets new reading',S,'        if !retain {','        if retain { self.current.as_mut().unwrap().prepared_monotonic_ms = now; }\n        if !retain {')
m('s70 offers highest',S,'let next = (0..self.submitted.len()).find(','let next = (0..self.submitted.len()).rev().find(')
m('s71 retries before new',S,'let next = (0..self.submitted.len()).find(|index| self.needs_submission(*index));','let next = (0..self.submitted.len()).find(|index| self.retry[*index]).or((0..self.submitted.len()).find(|index| self.needs_submission(*index)));')
m('s72 new before retries',S,'let next = (0..self.submitted.len()).find(|index| self.needs_submission(*index));','let next = (0..self.submitted.len()).find(|index| !self.submitted[*index]).or((0..self.submitted.len()).find(|index| self.needs_submission(*index)));')
m('s73 finish keeps deadline',S,'''        self.current = None;
        self.deadline_monotonic_ms = None;
    }''','''        self.current = None;
    }''')
m('s74 prohibited timeout retries',S,'''                AcknowledgmentWindow::Prohibited => {
                    self.finish(SenderState::Failed(SenderFailure::SegmentInterval))
                }
''','')
m('s75 submission shown in awaiting accept',S,'''        if self.state != SenderState::Prepared {
            return None;
        }
        self.current''','''        self.current''')
m('s76 count not counted when late',S,'        self.layer3_submissions = count;\n','        if deadline.is_none_or(|d| observed_monotonic_ms < d) { self.layer3_submissions = count; }\n')
m('s77 clock after closed in submitted',S,'''        self.check_clock(observed_monotonic_ms)?;
        if self.state.closed() {
            return Err(Error::Closed);
        }''','''        if self.state.closed() {
            return Err(Error::Closed);
        }
        self.check_clock(observed_monotonic_ms)?;''')
m('s78 clock after closed in response',S,'''        self.check_clock(now)?;
        if self.state.closed() {
            return Err(Error::Closed);
        }
        if peer''','''        if self.state.closed() {
            return Err(Error::Closed);
        }
        self.check_clock(now)?;
        if peer''')
m('s79 timeout status treated as Continuing',S,'Status::Received => self.finish(SenderState::Complete(Completion::PeerReceived)),','Status::Received | Status::ProtocolUnsupported => self.finish(SenderState::Complete(Completion::PeerReceived)),')
m('s80 carrier one bit',S,'raw & SEGMENTED_CARRIER_BITS == SEGMENTED_CARRIER_BITS','raw & SEGMENTED_CARRIER_BITS != 0')
m('s81 service before identity',S,'''        let (_, width, value) = peer.parts();
''','''        if let HigherLayerProtocol::Other(_) = protocol { return Err(Error::Service); }
        let (_, width, value) = peer.parts();
''')
m('s82 44 before 42',S,'        if self.state != SenderState::Prepared || !self.owns_current(submission) {','        if queued_monotonic_ms > observed_monotonic_ms { return Err(Error::ReceiptTime); }\n        if self.state != SenderState::Prepared || !self.owns_current(submission) {')
m('s83 34 before late 44',S,'        if self.plan.acknowledgment_window() == AcknowledgmentWindow::Prohibited\n            && self\n                .deadline','        queued_monotonic_ms.checked_add(SEGMENT_INTERVAL_MS).ok_or(Error::TimeOverflow)?;\n        if self.plan.acknowledgment_window() == AcknowledgmentWindow::Prohibited\n            && self\n                .deadline')
m('s84 prohibited last 34',S,'        let deadline =\n            if last','        queued_monotonic_ms.checked_add(SEGMENT_INTERVAL_MS).ok_or(Error::TimeOverflow)?;\n        let deadline =\n            if last')
m('s85 late accepted stale too',S,'        if self.state != SenderState::AwaitingAccept || !self.owns_current(submission) {\n            return Err(Error::StaleSubmission);\n        }\n        self.advance(now)?;\n        if self.state != SenderState::AwaitingAccept || !self.owns_current(submission) {\n            return Err(Error::StaleSubmission);\n        }\n        self.current','        self.advance(now)?;\n        if self.state != SenderState::AwaitingAccept || !self.owns_current(submission) {\n            return Err(Error::StaleSubmission);\n        }\n        self.current')
m('s86 failed cause',S,'SenderFailure::LowerLayer(failure)));','SenderFailure::LowerLayer(LowerLayerFailure::TimedOut)));')
m('s87 support below 5 allowed',Q,'self.optional_services_support.is_some() && version.code() < ProtocolVersion::Pv5.code()','self.optional_services_support.is_some() && version.code() < 4')
m('s88 support status unchecked',Q,'            && self.status != Status::MultipleServicesUnsupported\n','            && false\n')
m('s89 support status before version',Q,'        if self.transaction_id >= 1 << TRANSACTION_BITS {\n            return Err(Error::Field("transaction_id"));\n        }\n','        if self.transaction_id >= 1 << TRANSACTION_BITS {\n            return Err(Error::Field("transaction_id"));\n        }\n        if self.optional_services_support.is_some() && self.status != Status::MultipleServicesUnsupported { return Err(Error::Field("optional_services_support_status")); }\n')
m('s90 49 before 48',S,'        for index in 0..response.acknowledgments.bit_count() {','''        if response.status == Status::Received
            && (!self.submitted.iter().all(|value| *value)
                || (0..self.submitted.len())
                    .any(|index| response.acknowledgments.received(index as u8) == Some(false)))
        {
            return Err(Error::ContradictoryReceipt);
        }
        for index in 0..response.acknowledgments.bit_count() {''')
m('s91 late response map checked after advance',S,'''        if response.status == Status::Received
            && (!self''','''        if self.deadline_monotonic_ms.is_some_and(|deadline| now > deadline) { self.advance(now)?; if self.state.closed() { return Err(Error::Closed); } }
        if response.status == Status::Received
            && (!self''')
m('s92 response in prepared never takes back',S,'                if self.state != SenderState::AwaitingAccept {\n                    self.prepare_next(now);\n                }\n            }\n            Status::CrcError','                if self.state != SenderState::AwaitingAccept && (self.state != SenderState::Prepared || self.has_pending()) {\n                    self.prepare_next(now);\n                }\n            }\n            Status::CrcError')
m('s93 advance in prepared does not fire',S,'        if !self.state.closed()\n            && self','        if !self.state.closed() && self.state != SenderState::Prepared\n            && self')
m('s94 advance in awaiting accept does not fire',S,'        if !self.state.closed()\n            && self','        if !self.state.closed() && self.state != SenderState::AwaitingAccept\n            && self')

def apply(file,old,new,nth):
    p=f'{ROOT}/docs/src/{file}'; s=open(p).read()
    n=s.count(old)
    if n==0: return f'no match'
    i=-1
    for _ in range(nth+1): i=s.find(old,i+1)
    open(p,'w').write(s[:i]+new+s[i+len(old):])
    return None

def reset():
    shutil.rmtree(ROOT+'/docs',ignore_errors=True)
    os.makedirs(ROOT+'/docs'); shutil.copytree(SRC,ROOT+'/docs/src')

shutil.copytree(HERE,ROOT+'/oracle',ignore=shutil.ignore_patterns('target'))
shutil.copytree(os.path.join(HERE,'..','rust'),ROOT+'/rust',ignore=shutil.ignore_patterns('target'))
mp=ROOT+'/oracle/record/src/main.rs'
open(mp,'w').write("""
use record::list::replay; use record::play::{codec::Codec, plan::Plans, receiver::Receiving, sender::Sending};
fn main() {
    let folder = std::env::args().nth(2).unwrap();
    let mut good = true;
    for name in ["codec","plan","receiver","sender"] {
        let list = std::fs::read(format!("{folder}/{name}.rec")).unwrap();
        let r = std::panic::catch_unwind(|| match name {
            "codec" => replay(&list, &mut Codec),
            "plan" => replay(&list, &mut Plans),
            "receiver" => replay(&list, &mut Receiving::default()),
            _ => replay(&list, &mut Sending::default()),
        });
        match r { Ok(r) if r.differing == 0 => {}, Ok(r) => { good=false; println!("{name} {} differ, first {:?}", r.differing, r.first); }, Err(_) => { good=false; println!("{name} stops"); } }
    }
    if !good { std::process::exit(1); }
}
""")
env=dict(os.environ,CARGO_TARGET_DIR=ROOT+'/target',RUST_BACKTRACE='0',CARGO_PROFILE_RELEASE_OPT_LEVEL='1',CARGO_INCREMENTAL='1')
env.setdefault('CATKHIZE_LIB_DIR',os.path.abspath(os.path.join(HERE,'..','target','staticlib')))
PACKAGE='differ' if DRIVER else 'record'
def run():
    """Whether the error is found, and what is said of it."""
    if not DRIVER:
        r=subprocess.run([ROOT+'/target/release/record','--replay',REC],capture_output=True,text=True)
        out=[l for l in r.stdout.splitlines() if ', 0 differ' not in l]
        return r.returncode, '; '.join(out) or r.stderr.splitlines()[1:2]
    try: r=subprocess.run([ROOT+'/target/release/differ','--rounds','1','--shrink','0'],capture_output=True,text=True,timeout=600)
    except subprocess.TimeoutExpired: return 1, 'it runs longer than 600 s'
    out=[l for l in r.stdout.splitlines() if l.startswith(('DISAGREEMENT','NEVER SEEN'))]
    return r.returncode, '; '.join(out) or r.stderr.splitlines()[:2]
found=missed=0; bad=[]
for name,file,old,new,nth in sorted(M,key=lambda t:'srpfc'.index(t[0][0])):
    if only and name[0] not in only: continue
    reset()
    e=apply(file,old,new,nth)
    if e: bad.append((name,e)); print(name,'NOT APPLIED'); continue
    b=subprocess.run(['cargo','build','--offline','--release','-q','-p',PACKAGE],cwd=ROOT+'/oracle',env=env,capture_output=True,text=True)
    if b.returncode:
        bad.append((name,b.stderr[:600])); print(name,'DOES NOT COMPILE',b.stderr[:500]); continue
    status,said=run()
    if status: found+=1; print(name,'found:',said,flush=True)
    else: missed+=1; print(name,'MISSED',flush=True)
print('found',found,'missed',missed,'bad',len(bad))
shutil.rmtree(ROOT,ignore_errors=True)
sys.exit(1 if bad else 0)

#!/usr/bin/env python3
"""Puts one porting error at a time into a copy of the Rattle crates, compiles the exports without proof, runs the differential driver against them,
that of profile 1 and where it finds nothing that of profile 2, and says which errors they find.

strength_port.py [NAMES]   NAMES: the beginnings of names of errors (c01, r, s1); all errors if none is given.

It works in a temporary folder and changes nothing here. It needs a kit with rattle-cases, which compiles a library that is not proved; a kit that
builds only what is proved has none (docs/PORT.md), and then it stops. Status 1: an error was missed, or one no longer fits the code."""
import os, shutil, subprocess, sys, tempfile
HERE = os.path.dirname(os.path.abspath(__file__))
REPOSITORY = os.path.dirname(HERE)
SECONDS = 300
# Where one round of both drivers finds nothing, they run as many as make more than two million calls of the machines each.
MORE_ROUNDS = 9
# The crates that export an entry.
EXPORTS = ['catkhize', 'train_c_c']

ERRORS = []


def error(name, file, old, new, nth=0, also=()):
    """old, at its nth place in a file, becomes new; so do the others of `also`, each at its first place."""
    ERRORS.append((name, file, [(old, new, nth)] + [(*each, 0) for each in also]))


# ---- codec
E, D, T = 'tsar/src/encode.rt', 'tsar/src/decode.rt', 'tsar/src/lib.rt'
error('c01 versions up to 1 refused', T, 'const PV1: u8 = 1;', 'const PV1: u8 = 2;')
error('c02 transaction 7 refused', T, 'const TRANSACTION_MASK: u8 = 7;', 'const TRANSACTION_MASK: u8 = 6;')
error('c03 length 4,095 refused', T, 'const MAX_LENGTH_IE_MESSAGE_OCTETS: u16 = 4095;', 'const MAX_LENGTH_IE_MESSAGE_OCTETS: u16 = 4094;')
error('c04 CRC-24 of 2^24 taken', T, 'const MAX_CRC24: u32 = 16_777_215;', 'const MAX_CRC24: u32 = 16_777_216;')
error('c05 data length tested after the sequence of a Begin', E, '''        if MAX_SEGMENT_DATA_OCTETS < segment_data_length {
            return Err(Error::Field(ErrorField::SegmentDataLength));
        }
        if self.kind.segment_type().refuses(self.sequence_number) {
            return Err(Error::Field(ErrorField::BeginSequenceNumber));
        }''', '''        if self.kind.segment_type().refuses(self.sequence_number) {
            return Err(Error::Field(ErrorField::BeginSequenceNumber));
        }
        if MAX_SEGMENT_DATA_OCTETS < segment_data_length {
            return Err(Error::Field(ErrorField::SegmentDataLength));
        }''')
error('c06 61 where the output is exactly full', E, 'if output.len() < total {', 'if output.len() <= total {')
error('c07 61 tested before the parameters are counted', E, 'if output.len() < total {', 'if output.len() < end {')
error('c08 CRC-16 named 3', E, 'const CRC16_NAME: u32 = 2_097_152;', 'const CRC16_NAME: u32 = 3_145_728;')
error('c09 window one bit higher', E, 'u16::from(u8::from(s.acknowledgment_window)) * WINDOW_PLACE', 'u16::from(u8::from(s.acknowledgment_window)) * 2 * WINDOW_PLACE')
error('c10 services before the length', E, '''        put_length(output, after, kind.message_length());
        put_rest(output, end, kind);''', '''        put_rest(output, after, kind);
        put_length(output, after + kind.rest_octets(), kind.message_length());''')
error('c11 reserved bit of services unread', D, 'if field % SERVICES_RESERVED_VALUES != 0', 'if field % 1 != 0')
error('c12 encryption unread', D, 'field / ENCRYPTION_PLACE % SERVICE_FIELD_VALUES != 0', 'field / ENCRYPTION_PLACE % 2 != 0')
error('c13 window 6 taken', T, '            5 => Ok(AcknowledgmentWindow::Exceptions),\n', '            5 => Ok(AcknowledgmentWindow::Exceptions),\n            6 => Ok(AcknowledgmentWindow::Exceptions),\n')
error('c14 a cut length before a repeat', D, '''    if p.message_length.is_some() {
        return Err(Error::DuplicateParameter);
    }
    let &[a, b, ..] = s else {
        return Err(Error::Truncated);
    };''', '''    let &[a, b, ..] = s else {
        return Err(Error::Truncated);
    };
    if p.message_length.is_some() {
        return Err(Error::DuplicateParameter);
    }''')
error('c15 three reserved bits of a CRC-24', D, 'above_reserved(u32::from_be_bytes([a, b, c, d]))?', 'above_reserved(u32::from_be_bytes([a, b, c, d]) & !8)?')
error('c16 services on a Continue', D, '        (SegmentType::Begin, SERVICES_PARAMETER) => read_services(s, p),\n', '''        (SegmentType::Begin, SERVICES_PARAMETER) => read_services(s, p),
        (SegmentType::Continue, SERVICES_PARAMETER) => read_services(s, p),
''')
error('c17 the second protocol bit unread', D, 'if PROTOCOL_PLACE <= header {', 'if 128 <= header {')
error('c18 a response type tested before the protocol bits', D, '    if PROTOCOL_PLACE <= header {\n', '''    if header / TYPE_PLACE % 8 == crate::RESPONSE_TYPE {
        return Err(Error::UnsupportedResponse);
    }
    if PROTOCOL_PLACE <= header {
''')
error('c19 transaction of two bits', D, 'transaction_id: header % TYPE_PLACE,', 'transaction_id: header % 4,')
error('c20 unparsed octets counted from the data', D, 'unparsed_octets: bytes.len() - parsed.at,', 'unparsed_octets: bytes.len() - end,')
error('c21 length of eleven bits', D, 'const LENGTH_VALUES: u16 = 4096;', 'const LENGTH_VALUES: u16 = 2048;')
error('c22 a decode that answers 65,535 data octets', D, 'segment_data_length: usize::from(length),', 'segment_data_length: usize::from(length) + 65_280,')
error('c23 window 5 refused', T, '            5 => Ok(AcknowledgmentWindow::Exceptions),\n', '')

# ---- planner
P = 'segmentation/src/plan.rt'
TEST_20 = '''    if ceiling < payload_budget_octets {
        return Err(PlanningError::PayloadBudget);
    }
'''
TEST_UNSEGMENTED = '''    if request.message_octets <= payload_budget_octets {
        return Ok(MessagePlan::Unsegmented);
    }
'''
TEST_25 = '''    if is_exceptions(acknowledgment_window) {
        return Err(PlanningError::ExceptionsWindow);
    }
'''
error('p01 a message of the budget is cut', P, 'if request.message_octets <= payload_budget_octets {', 'if request.message_octets < payload_budget_octets {')
error('p02 length stated at one octet less', P, 'self.minimum_begin_octets() + OPTIONAL_WORD_OCTETS < self.payload_budget_octets', 'self.minimum_begin_octets() + OPTIONAL_WORD_OCTETS <= self.payload_budget_octets')
error('p03 255 segments at the most', P, 'if MAX_SEGMENTS <= following {', 'if MAX_SEGMENTS <= following + 1 {')
error('p04 later segments of 256 octets', P, 'let later_capacity = MAX_SEGMENT_DATA_OCTETS.min(', 'let later_capacity = (MAX_SEGMENT_DATA_OCTETS + 1).min(')
error('p05 the count rounded down', P, '(self.message_octets - begin_octets).div_ceil(later_capacity)', '(self.message_octets - begin_octets) / later_capacity')
error('p06 the ceiling tested after Unsegmented', P, TEST_20 + TEST_UNSEGMENTED, TEST_UNSEGMENTED + TEST_20)
error('p07 the last segment is a Continue', P, 'if usize::from(self.index) + 1 == self.plan.count {', 'if usize::from(self.index) == self.plan.count {')
error('p08 offsets of equal segments', P, 'self.plan.begin_octets + before *', 'self.plan.later_capacity + before *')
error('p09 a segment that begins past the message', P, 'if self.message_octets < offset {', 'if self.count < index {')
error('p10 no segment at the end of the message', P, 'if self.message_octets < offset {', 'if self.message_octets <= offset {')
error('p11 the longer ones last', P, 'if self.longer() < index {', 'if index + self.longer().min(self.plan.count - 1) < self.plan.count {', also=[
    ('+ before.min(self.longer())', '+ before - before.min(self.plan.count - 1 - self.longer().min(self.plan.count - 1))')])
error('p12 one longer too many', P, '        plan.message_octets.saturating_sub(held)\n', '''        match plan.message_octets.saturating_sub(held) {
            0 => 0,
            n => n + 1,
        }
''')
error('p13 a share rounded up', P, 'rest.checked_div(following).unwrap_or(0)', 'if following == 0 { 0 } else { rest.div_ceil(following) }')
error('p14 an even planner that refuses where a share would be 1', P, 'MessagePlan::Segmented(p) => Ok(MessagePlan::Segmented(p.evened())),', '''MessagePlan::Segmented(p) => {
            if p.share() == 1 {
                return Err(PlanningError::HeaderCapacity);
            }
            Ok(MessagePlan::Segmented(p.evened()))
        }''')
error('p15 an even plan of two segments that keeps the capacity', P, '        let following = self.count.saturating_sub(1);\n', '''        if self.count <= 2 {
            return self.later_capacity;
        }
        let following = self.count.saturating_sub(1);
''')
error('p16 a share of the whole message', P, 'rest.checked_div(following).unwrap_or(0)', 'if following == 0 { 0 } else { self.message_octets / self.count }')
error('p17 one octet more beside 255', P, 'self.later_capacity + part.longer().min(1)', 'self.later_capacity')
error('p18 segments of a plan of 257', P, '|| MAX_SEGMENTS < plan.count', '|| MAX_SEGMENTS < index')
error('p19 plan_even is plan_message', 'plan_c/src/lib.rt', '        plan_even(\n', '        plan_message(\n')
error('p20 25 before Unsegmented', P, TEST_UNSEGMENTED + TEST_25, TEST_25 + TEST_UNSEGMENTED)
error('p21 25 before 20', P, TEST_20, '''    if payload_budget_octets < request.message_octets && is_exceptions(acknowledgment_window) {
        return Err(PlanningError::ExceptionsWindow);
    }
''' + TEST_20)
error('p22 25 behind the codec', P, TEST_25, '', also=[
    ('    request.bare_begin().validate(0, version)?;\n', '    request.bare_begin().validate(0, version)?;\n' + TEST_25)])
error('p23 25 behind 21 and 22', P, TEST_25, '', also=[
    ('        Ok(SegmentedMessage {\n', '''        if is_exceptions(self.acknowledgment_window) {
            return Err(PlanningError::ExceptionsWindow);
        }
        Ok(SegmentedMessage {
''')])
error('p24 no 25', P, TEST_25, '')
error('p25 25 for Last too', P, '    window == AcknowledgmentWindow::Exceptions\n', '    window == AcknowledgmentWindow::Exceptions || window == AcknowledgmentWindow::Last\n')
error('p26 an even planner without 25', P, '''    let plan = plan_message(
        message,
        payload_budget_octets,
        transaction_id,
        acknowledgment_window,
''', '''    let window = if is_exceptions(acknowledgment_window) {
        AcknowledgmentWindow::Last
    } else {
        acknowledgment_window
    };
    let plan = plan_message(
        message,
        payload_budget_octets,
        transaction_id,
        window,
''', also=[('Ok(MessagePlan::Segmented(p.evened())),', '''Ok(MessagePlan::Segmented(SegmentedMessage {
            acknowledgment_window,
            ..p.evened()
        })),''')])
error('p27 25 spelled 26', 'plan_c/src/lib.rt', '256 * 25', '256 * 26')
error('p28 Exceptions named no window', 'plan_c/src/lib.rt', 'const LAST_WINDOW: u8 = 5;', 'const LAST_WINDOW: u8 = 4;')

# ---- frozen check
F = 'segmentation/src/frozen.rt'
error('f01 a Begin with a CRC service', F, ' && services.crc_status == CrcStatus::None', '')
error('f02 budget before codec', F, '        head.segment\n            .validate(', '''        if self.payload_budget_octets < head.segment.kind.header_octets() + head.segment_data_length {
            return Err(PlanningError::PayloadBudget);
        }
        head.segment
            .validate(''')
error('f03 the last octet of the message uncompared', F, 'octets::same(&self.joined[offset..end], &self.message[offset..end])', 'n == 0 || octets::same(&self.joined[offset..end - 1], &self.message[offset..end - 1])')
error('f04 octets left over', F, 'if offset != self.message.len() {', 'if self.message.len() < offset {')
error('f05 heads past the count kept', F, 'heads: kept_heads(train.heads),', 'heads: kept_heads(self.heads),')
error('f06 256 segments refused', F, '|| MAX_SEGMENTS < count', '|| MAX_SEGMENTS <= count')
error('f07 23 in place of 24', F, 'return Err(PlanningError::JoinedLength);', 'return Err(PlanningError::FrozenPlan);')
error('f08 stated lengths of later segments unread', F, '|| states_other(length_in(kind), self.message.len())', '|| (index == 0 && states_other(length_in(kind), self.message.len()))')
error('f09 a frozen check that refuses Exceptions', F, '        if !are_plain(optional) {\n', '''        if optional.acknowledgment_window == AcknowledgmentWindow::Exceptions {
            return Err(PlanningError::ExceptionsWindow);
        }
        if !are_plain(optional) {
''')

# ---- converter
I, IC = 'dialect/src/lib.rt', 'plan_c/src/lib.rt'
TEST_26 = '''        if !self.fits_all(&plan.heads[1..count]) {
            return Err(ConvertError::OtherPattern);
        }
'''
TEST_CONVERTED = '''        if passes_budget(&plan.heads[..count], plan.payload_budget_octets) {
            return Err(ConvertError::Planning(PlanningError::PayloadBudget));
        }
'''
# 26 for a Begin that states no length, and what the others restate without it.
STATED = '''        let message_octets = length_in(plan.heads[0].segment.kind).ok_or(
            ConvertError::OtherPattern,
        )?;
'''
OCTETS = '        let message_octets = plan.message_octets as u16;\n'
FITS, LATER, BUDGETED = 'self.fits_all(&plan.heads[1..count])', '&mut plan.heads[1..count]', 'passes_budget(&plan.heads[..count], '
TEST_258 = '''    if LAST_DIALECT < dialect {
        return UNNAMED;
    }
'''
error('d01 26 behind 20', I, TEST_26, '''        let fits = states_length(plan.heads[0]) && self.fits_all(&plan.heads[1..count]);
''', also=[(STATED, OCTETS), (TEST_CONVERTED, TEST_CONVERTED + '''        if !fits {
            return Err(ConvertError::OtherPattern);
        }
''')])
error('d02 26 before the frozen check', I, '    let check = try_from_frozen(', '''    if 1 <= count && count <= 256 && !(states_length(heads[0]) && read.fits_all(&heads[1..count])) {
        return Conversion::from(Err(ConvertError::OtherPattern));
    }
    let check = try_from_frozen(''')
error('d03 no 26', I, TEST_26, '', also=[(STATED, OCTETS)])
error('d04 a pattern tested on the End alone', I, FITS, 'self.fits_all(&plan.heads[count - 1..count])')
error('d05 a pattern tested from segment 2 on', I, FITS, 'self.fits_all(&plan.heads[2..count])')
error('d06 a pattern tested up to the End', I, FITS, 'self.fits_all(&plan.heads[1..count - 1])')
error('d07 a pattern tested past the count', I, FITS, 'self.fits_all(&plan.heads[1..])')
error('d08 a pattern tested up to segment 254', I, FITS, 'self.fits_all(&plan.heads[1..count.min(255)])')
error('d09 a train that states no length is Begin only', I, STATED, '''        if !states_length(plan.heads[0]) && !self.fits(plan.heads[0]) {
            return Err(ConvertError::OtherPattern);
        }
''' + OCTETS)
error('d10 a Begin without a length among segments that have it', I, STATED, '''        if !states_length(plan.heads[0]) && self.fits(plan.heads[0]) {
            return Err(ConvertError::OtherPattern);
        }
''' + OCTETS)
error('d11 a stated length of 0 is none', I, 'length_in(head.segment.kind).is_some()', 'length_in(head.segment.kind).is_some_and(|n| n != 0)', also=[
    ('length_in(plan.heads[0].segment.kind).ok_or(', 'length_in(plan.heads[0].segment.kind).filter(|n| *n != 0).ok_or(')])
error('d12 4,095 octets are too long for a length', I, 'if !self.fits_all(', 'if 4095 <= plan.message_octets || !self.fits_all(')
error('d13 a converter that refuses Exceptions', I, TEST_26, TEST_26 + '''        if plan.acknowledgment_window == tsar::AcknowledgmentWindow::Exceptions {
            return Err(ConvertError::Planning(PlanningError::ExceptionsWindow));
        }
''')
error('d14 nothing to do', I, TEST_26, '''        if self.other().fits_all(&plan.heads[1..count]) {
            return Ok(plan);
        }
''' + TEST_26)
error('d15 the dialect read is written', I, '        self.other()\n            .restate_all(', '        self.restate_all(')
error('d16 a Begin that loses its length on the way back', I, LATER, '&mut plan.heads[0..count]')
error('d17 the End is left as it was', I, LATER, '&mut plan.heads[1..count - 1]')
error('d18 segment 1 is left as it was', I, LATER, '&mut plan.heads[2..count]')
error('d19 segment 255 is left as it was', I, LATER, '&mut plan.heads[1..count.min(255)]')
error('d20 empty heads past the count state a length', I, LATER, '&mut plan.heads[1..]')
error('d21 no 20 by a converted segment', I, TEST_CONVERTED, '')
error('d22 the budget of the train as it came', I, '        let count = plan.count;\n', '        let count = plan.count;\n        let came = plan.heads;\n', also=[
    (BUDGETED, 'passes_budget(&came[..count], ')])
error('d23 the budget of all but the End', I, BUDGETED, 'passes_budget(&plan.heads[..count - 1], ')
error('d24 the budget of the End alone', I, BUDGETED, 'passes_budget(&plan.heads[count - 1..count], ')
error('d25 the budget of segments up to 254', I, BUDGETED, 'passes_budget(&plan.heads[..count.min(255)], ')
error('d26 20 where a converted segment is the budget', I, '|octets| payload_budget_octets < octets', '|octets| payload_budget_octets <= octets')
error('d27 20 by a converted segment before the frozen check', I, '    let check = try_from_frozen(', '''    if 1 <= count && count <= 256 && message.len() <= 4095 && states_length(heads[0]) && read.fits_all(&heads[1..count]) {
        let mut early = heads;
        read.other().restate_all(&mut early[1..count], message.len() as u16);
        if passes_budget(&early[..count], payload_budget_octets) {
            return Conversion::from(Err(ConvertError::Planning(PlanningError::PayloadBudget)));
        }
    }
    let check = try_from_frozen(''')
error('d28 21 in place of 20', I, 'PlanningError::PayloadBudget', 'PlanningError::HeaderCapacity')
error('d29 26 in place of 20', I, 'ConvertError::Planning(PlanningError::PayloadBudget)', 'ConvertError::OtherPattern')
error('d30 a length of one octet less', I, 'Dialect::Every => Some(message_octets),', 'Dialect::Every => Some(message_octets.saturating_sub(1)),')
error('d31 each segment states its own length', I, 'self.length(message_octets)', 'self.length(head.segment_data_length as u16)')
error('d32 data that give way to the length', I, '            ..head\n', '            segment_data_length: head.segment_data_length.saturating_sub(2),\n')
error('d33 transaction 0', I, '                ..head.segment\n', '                transaction_id: 0,\n                ..head.segment\n')
error('d34 heads past the count kept', I, 'read.converted(check.plan)', 'read.converted(FrozenMessage { heads, ..check.plan })')
error('d35 the services of the Begin lost', I, '''SegmentKind::Begin { services, .. } => SegmentKind::Begin {
            message_length,
            services,
        },''', '''SegmentKind::Begin { .. } => SegmentKind::Begin {
            message_length,
            services: None,
        },''', also=[('        self.other()\n', '        plan.heads[0] = Dialect::Every.restated(plan.heads[0], message_octets);\n        self.other()\n')])
error('d36 the window lost', I, '        Ok(plan)\n', '        plan.acknowledgment_window = tsar::AcknowledgmentWindow::Prohibited;\n        Ok(plan)\n')
error('d37 the message taken for the joined data', I, '''        count,
        joined,
        message,
        payload_budget_octets,
        version,
        ceiling,
    );''', '''        count,
        message,
        message,
        payload_budget_octets,
        version,
        ceiling,
    );''')
error('d38 a ceiling that is not read', I, '''        version,
        ceiling,
    );''', '''        version,
        payload_budget_octets,
    );''')
error('d39 a version that is not read', I, '''        version,
        ceiling,
    );''', '''        1,
        ceiling,
    );''')
error('d40 the dialects exchanged', IC, '''        1 => Dialect::Every,
        _ => Dialect::BeginOnly,''', '''        1 => Dialect::BeginOnly,
        _ => Dialect::Every,''')
error('d41 258 for dialect 1', IC, 'const LAST_DIALECT: u8 = 1;', 'const LAST_DIALECT: u8 = 0;')
error('d42 dialect 2 taken', IC, 'const LAST_DIALECT: u8 = 1;', 'const LAST_DIALECT: u8 = 2;')
error('d43 258 before 257', IC, '''        Err(code) => code,
        Ok(given) => {
            if LAST_DIALECT < dialect {
''', '''        Err(code) if code == MISSPELLED && LAST_DIALECT < dialect => UNNAMED,
        Err(code) => code,
        Ok(given) => {
            if LAST_DIALECT < dialect {
''')
error('d44 258 before 256', IC, '    match read_heads(heads, plan) {\n', TEST_258 + '    match read_heads(heads, plan) {\n', 1)
error('d45 26 spelled 23', IC, '256 * 26', '256 * 23')
error('d46 a plan written beside a refusal', IC, '        Err(e) => e.code(),\n        Ok(()) => {\n', '''        Err(e) => {
            put_plan(plan, Plan::frozen(checked.plan));
            e.code()
        }
        Ok(()) => {
''')

# ---- delivery orders
N, NE = 'orders/src/lib.rt', 'catkhize/src/plan.rt'
TEST_28 = '''    if segments < MIN_SEGMENTS || MAX_SEGMENTS < segments || factorial(segments - 1) <= number {
        return Err(OrderError::Number);
    }
'''
# The same in two tests.
TEST_SEGMENTS = '''    if segments < MIN_SEGMENTS || MAX_SEGMENTS < segments {
        return Err(OrderError::Number);
    }
'''
TEST_COUNT = '''    if factorial(segments - 1) <= number {
        return Err(OrderError::Number);
    }
'''
TEST_61 = '''    if output.len() < segments {
        return Err(OrderError::Output);
    }
'''
COUNT_UP = '    count_up(&mut output[0..segments]);\n'
error('n01 orders numbered by digits from the right', N, '''        let f = factorial(left.len() - i - 1);
        bring(&mut left[i..], rest / f);
        rest %= f;
''', '''        let m = left.len() - i;
        bring(&mut left[i..], rest % m);
        rest /= m;
''')
error('n02 119 orders of six segments', N, '24, 120];', '24, 119];')
error('n03 seven for three factorial', N, '2, 6, 24,', '2, 7, 24,')
error('n04 a train of one segment', N, 'const MIN_SEGMENTS: usize = 2;', 'const MIN_SEGMENTS: usize = 1;')
error('n05 two segments refused', N, 'if segments < MIN_SEGMENTS', 'if segments <= MIN_SEGMENTS')
error('n06 six segments refused', N, '|| MAX_SEGMENTS < segments', '|| MAX_SEGMENTS <= segments')
error('n07 a train of seven segments', N, 'const MAX_SEGMENTS: usize = 6;', 'const MAX_SEGMENTS: usize = 7;',
      also=[('const FACTORIALS: [usize; 6] = [1, 1, 2, 6, 24, 120];', 'const FACTORIALS: [usize; 7] = [1, 1, 2, 6, 24, 120, 720];')])
error('n08 the count of orders taken for a number', N, '|| factorial(segments - 1) <= number', '|| factorial(segments - 1) < number')
error('n09 61 before 28', N, TEST_28 + TEST_61, TEST_61 + TEST_28)
error('n10 61 before 28 for the number', N, TEST_28 + TEST_61, TEST_SEGMENTS + TEST_61 + TEST_COUNT)
error('n11 61 where the output is exactly full', N, 'if output.len() < segments {', 'if output.len() <= segments {')
error('n12 an output of one octet less taken', N, 'if output.len() < segments {', 'if output.len() + 1 < segments {')
error('n13 28 and 61 exchanged', IC, 'OrderError::Number => 256 * 28', 'OrderError::Number => OUTPUT_TOO_SHORT', also=[
    ('OrderError::Output => OUTPUT_TOO_SHORT', 'OrderError::Output => 256 * 28')])
error('n14 28 spelled 26', IC, '256 * 28', '256 * 26')
error('n15 61 that writes', N, TEST_61, '''    if output.len() < segments {
        count_up(output);
        return Err(OrderError::Output);
    }
''')
error('n16 28 that writes', N, COUNT_UP, '', also=[(TEST_28, TEST_SEGMENTS + '''    if segments <= output.len() {
        count_up(&mut output[0..segments]);
    }
''' + TEST_COUNT)])
error('n17 octets behind the order written', N, COUNT_UP, '    count_up(output);\n')
error('n18 a number cut to 32 bits', IC, 'write_order(segments as usize, number as usize, output)', 'write_order(segments as usize, number as u32 as usize, output)')
error('n19 a number cut to 63 bits', NE, 'plan_c::catkhize_delivery_order(segments, number, output)', 'plan_c::catkhize_delivery_order(segments, number % 9_223_372_036_854_775_808, output)')
error('n20 segments cut to three bits', NE, 'plan_c::catkhize_delivery_order(segments, number, output)', 'plan_c::catkhize_delivery_order(segments % 8, number, output)')
error('n21 the Begin among those that are arranged', N, 'arrange(&mut output[1..segments], number);', 'arrange(&mut output[0..segments - 1], number);')
error('n22 the last two places not arranged', N, 'for i in 0..left.len() {', 'for i in 0..left.len().saturating_sub(2) {')
error('n23 a swap where those before go one place on', N, 'left[..=d].rotate_right(1);', 'left.swap(0, d);')
error('n24 the last order first', N, 'arrange(&mut output[1..segments], number);', 'arrange(&mut output[1..segments], factorial(segments - 1) - 1 - number);')

# ---- words, peers, responses
W, L, Q, O = 'words/src/lib.rt', 'link/src/lib.rt', 'response/src/lib.rt', 'octets/src/lib.rt'
error('w01 marks from 192 on as from 191', W, 'front_in(n, 192),', 'front_in(n, 191),')
error('w02 the highest mark of the third word', W, 'return Some(64 * k as u8 + top(self.words[k]));', 'return Some(64 * k as u8 + top(self.words[k]) - (k == 2) as u8);')
error('w03 marks past 255 in maps of 256 entries', W, '''    if 64 <= k {
        return u64::MAX;
    }''', '''    if 64 <= k {
        return u64::MAX >> 1;
    }''')
error('l01 width 63 refused', L, 'const MAX_WIDTH: u8 = 63;', 'const MAX_WIDTH: u8 = 62;')
error('l02 a value of 2 to the width', L, '1u64 << self.width <= self.value', '1u64 << self.width < self.value')
error('l03 carrier bits: one is enough', L, 'const SEGMENTED_CARRIER_BITS: u8 = 0xc0;', 'const SEGMENTED_CARRIER_BITS: u8 = 0x80;')
error('l04 the kind of a peer uncompared', L, '#[derive(Clone, Copy, Debug, PartialEq, Eq)]\npub struct MobileIdentity {', '#[derive(Clone, Copy, Debug, Eq)]\npub struct MobileIdentity {', also=[
    ('impl MobileIdentity {', '''impl PartialEq for MobileIdentity {
    fn eq(&self, other: &MobileIdentity) -> bool {
        self.width == other.width && self.value == other.value
    }
}

impl MobileIdentity {''')])
error('q01 maps of 257 entries', Q, 'const MAX_MAP_BITS: u16 = 256;', 'const MAX_MAP_BITS: u16 = 257;')
error('q02 6/6 after 1', Q, '''        if map_length_refused(self.acknowledgments.bit_count) {
            return Err(Error::Field(ErrorField::AcknowledgmentMapLength));
        }
        if version < PV1 {
            return Err(Error::Version);
        }
        if TRANSACTION_MASK < self.transaction_id {
            return Err(Error::Field(ErrorField::TransactionId));
        }''', '''        if version < PV1 {
            return Err(Error::Version);
        }
        if TRANSACTION_MASK < self.transaction_id {
            return Err(Error::Field(ErrorField::TransactionId));
        }
        if map_length_refused(self.acknowledgments.bit_count) {
            return Err(Error::Field(ErrorField::AcknowledgmentMapLength));
        }''')
error('q03 a support list from version 6 on', Q, 'const PV5: u8 = 5;', 'const PV5: u8 = 6;')
error('q04 a map without its last entry', Q, 'first_entries(received, u16::from(last) + 1)', 'first_entries(received, u16::from(last))')
error('o01 the last octet uncopied', O, '    dst[start..start + n]', '    let n = n.saturating_sub(1);\n    dst[start..start + n]')
error('o02 the last octet of a repeat uncompared', O, 'a.iter().zip(b).position(', 'a.iter().zip(b).take(a.len().saturating_sub(1)).position(')

# ---- receiver
C, M, R, A, S2 = ('receiver/src/' + f for f in ('checks.rt', 'machine.rt', 'rules.rt', 'replies.rt', 'states.rt'))
PROFILES = 'link/src/profiles.rt'
H, B = 'receiver/src/faults.rt', 'receiver/src/turns.rt'
TICK = '        Ok(self.fire(monotonic_ms, store))\n'
TICK_CHECK = '        self.clock_check(store, monotonic_ms)?;\n' + TICK
CLOSE = '        self.close_as(standing, ReceiverState::Canceled, monotonic_ms, store);\n'
RELEASED = '        let allowed = self.progress.state.is_complete();\n'
error('r01 the last reading from which a deadline fits', C, 'if MAX_READING_MS - receiver_interval(self.terms.profile) < brought.reading {', 'if MAX_READING_MS - receiver_interval(self.terms.profile) <= brought.reading {')
error('r02 a wait of 299,999 ms', PROFILES, 'const REASSEMBLY_MS: u64 = 300_000;', 'const REASSEMBLY_MS: u64 = 299_999;')
error('r03 the wipe goes past 65,280', B, 'octets::wipe(store, STORE_OCTETS);', 'octets::wipe(store, store.len());')
error('r04 the wipe stops at what a slot less holds', B, 'octets::wipe(store, STORE_OCTETS);', 'octets::wipe(store, STORE_OCTETS - 255);')
error('r05 slots of 256 octets in keep', B, 'octets::put(store, SLOT_OCTETS * at, data);', 'octets::put(store, 256 * at, data);')
error('r06 late at the deadline', B, 'if late(', 'if crate::states::due(')
error('r07 advance fires only past the deadline', S2, 'deadline.is_some_and(|d| d <= reading)', 'deadline.is_some_and(|d| d < reading)')
error('r08 an expired receiver keeps its store', M, 'ReceiverState::Expired, reading, store);', 'ReceiverState::Expired, reading, &mut []);')
error('r09 37 takes the reading', B, '            return ReceiveError::TimerDue;\n', '            self.progress.last_monotonic_ms = reading;\n            return ReceiveError::TimerDue;\n')
error('r10 38 of a complete receiver takes no reading', B, '                self.progress.last_monotonic_ms = reading;\n', '')
error('r11 a repeat moves no deadline', B, 'if self.progress.state.is_receiving() {', 'if self.progress.state.is_awaiting() {')
error('r12 a repeat in Complete sets a deadline', B, 'if self.progress.state.is_receiving() {', 'if !self.progress.state.is_awaiting() {')
error('r13 a repeat with other data is a repeat', B, 'octets::compare(own, data)', 'octets::compare(data, data)')
error('r14 a Continue at 255 is held', R, 'if is_continue(kind) && sequence == LAST_SEQUENCE {', 'if is_continue(kind) && false {')
error('r15 kinds before repeats', R, '    if place.held && !place.same {\n', '''    if segment.kind.crc().is_some() && !progress.state.is_complete() {
        return Decision::Fails(Stage::Before, Status::CrcSelectionUnsupported);
    }
    if place.held && !place.same {
''')
error('r16 the size of a repeat uncompared', R, 'place.octets != amounts.octets', 'place.octets < amounts.octets')
error('r17 an End below what is held', R, ' || !clear)', ')')
error('r18 past the end is held', R, 'if past_end(end, sequence) {', 'if past_end(end, sequence) && sequence == LAST_SEQUENCE {')
error('r19 a message of the maximum is too long', R, 'room < amounts.octets', 'room <= amounts.octets')
error('r20 a failing Begin leaves no services', R, 'return Decision::Fails(Stage::Begun, unserved(compression, crc));', 'return Decision::Fails(Stage::Before, unserved(compression, crc));')
error('r21 a length error at completion leaves the segment out of the map', R, 'return Decision::Fails(Stage::Keeping, Status::MessageLengthError);', 'return Decision::Fails(Stage::Noted, Status::MessageLengthError);')
error('r22 timeout maps end at the highest held slot', A, 'highest.saturating_add(1)', 'highest')
error('r23 a timeout map after slot 253 has 256 entries', A, 'highest.saturating_add(1)', 'if highest < 253 { highest + 1 } else { 255 }')
error('r24 the period counts from 0', A, '(u16::from(sequence) + 1) % n == 0', 'u16::from(sequence) % n == 0')
error('r25 Every16 every 8', A, 'const PERIODS: [u16; 6] = [0, 4, 8, 16, 0, 0];', 'const PERIODS: [u16; 6] = [0, 4, 8, 8, 0, 0];')
error('r26 Exceptions answers completion', A, ' && window != AcknowledgmentWindow::Exceptions', '')
error('r27 a support list with CRC', A, '        crc: false,\n    };', '        crc: true,\n    };')
error('r28 a support list below version 5', A, 'PV5 <= terms.version', 'PV5 - 1 <= terms.version')
error('r29 34 before 38 and 36', C, '''        if !self.progress.state.is_taking() {
            return Err(ReceiveError::Closed);
        }
        if self.progress.state.is_awaiting() && !is_begin(segment.kind) {
            return Err(ReceiveError::BeginRequired);
        }
        if MAX_READING_MS - receiver_interval(self.terms.profile) < brought.reading {
            return Err(ReceiveError::TimeOverflow);
        }''', '''        if MAX_READING_MS - receiver_interval(self.terms.profile) < brought.reading {
            return Err(ReceiveError::TimeOverflow);
        }
        if !self.progress.state.is_taking() {
            return Err(ReceiveError::Closed);
        }
        if self.progress.state.is_awaiting() && !is_begin(segment.kind) {
            return Err(ReceiveError::BeginRequired);
        }''')
error('r30 61 asks for 65,280 octets always', C, 'if output.len() < self.terms.maximum_message_octets.min(STORE_OCTETS) {', 'if output.len() < STORE_OCTETS {')
error('r31 62 without the sum', H, ' || stored != found.sum', '')
error('r32 62 where the end itself is not held', H, 'held.none_past(e)', 'held.none_past(e) && held.has(e)')
error('r33 a message joined without its last segment', B, 'for t in 0..usize::from(last) + 1 {', 'for t in 0..usize::from(last) {')
error('r34 the reading of a refused advance is taken', M, TICK_CHECK, '''        if let Err(e) = self.clock_check(store, monotonic_ms) {
            self.progress.last_monotonic_ms = monotonic_ms;
            return Err(e);
        }
''' + TICK)
error('r35 cancelling a complete receiver', M, 'let allowed = state.is_awaiting() || state.is_receiving();', 'let allowed = state.is_taking();')
error('r36 failure forgets the stated length', B, 'message_length: standing.message_length,', 'message_length: None,')
error('r37 closing keeps the held lengths', B, '        self.lengths = empty_lengths();\n', '')
error('r38 a repeat compared with the octets of slot 0', B, 'let own = part(store, SLOT_OCTETS * at, ', 'let own = part(store, 0, ')
error('r39 the kind of a repeat uncompared', B, '!same_kind(self.slots[at].kind, kind)', '!same_kind(kind, kind)')
N = 'receiver_answers/src/lib.rt'
error('r40 figures over all 256 slots', Q, 'Words::below(self.bit_count).minus(self.received)', 'Words::below(256).minus(self.received)')
error('r41 255 where none is missing', Q, 'const NONE_MISSING: u16 = 256;', 'const NONE_MISSING: u16 = 255;')
error('r42 the received entries counted in place of the missing ones', Q, 'count: missing.ones(),', 'count: self.received.ones(),')
error('r43 missing entries counted up to 191', W, 'let high = ones_in(self.words[2]) + ones_in(self.words[3]);', 'let high = ones_in(self.words[2]);')
error('r44 the last missing entry in place of the first', Q, 'missing.lowest()', 'missing.highest()')
error('r45 the first missing entry counted from 1', Q, 'map_or(NONE_MISSING, u16::from)', 'map_or(NONE_MISSING, |s| u16::from(s) + 1)')
error('r46 figures of a timeout answer without the entry past the highest', A, 'missing: built.missing,', 'missing: map_of(held, last_entry(false, held, standing.end_sequence)).missing,')
error('r47 no figures beside a support list', A, '        ..reported\n', '        missing: response::Missing { count: 0, first: 0 },\n')
error('r48 the two figures exchanged', N, 'FIGURES, x.missing.count', 'FIGURES, x.missing.first', also=[
    ('FIGURE_OCTETS, x.missing.first', 'FIGURE_OCTETS, x.missing.count')])
error('r49 the first missing entry written lowest octet first', N, 'x.missing.first);', 'x.missing.first % 256 * 256 + x.missing.first / 256);')
error('r50 octets of the figures left as they were where there is no response', N, '&[0; REPLY_OCTETS]', '&[0; FIGURES]')
error('r51 a release that leaves the store', M, CLOSE, '''        if self.progress.state.is_complete() {
            self.close_as(standing, ReceiverState::Canceled, monotonic_ms, &mut []);
            return Ok(());
        }
''' + CLOSE)
error('r52 a release that leaves the length of a slot', M, CLOSE, '''        let length = if self.progress.state.is_complete() { self.lengths[1] } else { 0 };
''' + CLOSE + '''        self.lengths[1] = length;
''')
error('r53 releasing while Receiving', M, RELEASED, '''        let allowed = self.progress.state.is_complete() || self.progress.state.is_receiving();
''')
error('r54 releasing in no state', M, RELEASED, '        let allowed = false;\n')
error('r55 a release that takes no reading', M, CLOSE, '''        let reading = if self.progress.state.is_complete() {
            self.progress.last_monotonic_ms
        } else {
            monotonic_ms
        };
        self.close_as(standing, ReceiverState::Canceled, reading, store);
''')
error('r56 a released receiver that stays Complete', M, CLOSE, '''        let state = if self.progress.state.is_complete() {
            ReceiverState::Complete
        } else {
            ReceiverState::Canceled
        };
        self.close_as(standing, state, monotonic_ms, store);
''')
error('r57 33 before 62 in a release', M, RELEASED, RELEASED + '''        if crate::STORE_OCTETS <= store.len() && monotonic_ms < self.progress.last_monotonic_ms {
            return Call {
                answer: Err(ReceiveError::ClockRegression),
                receiver: self,
            };
        }
''')
error('r58 a release that wipes past 65,280', M, CLOSE, '''        if self.progress.state.is_complete() {
            octets::wipe(store, store.len());
        }
''' + CLOSE)
error('r59 a Begin under Exceptions unserved', R, '    if kind.crc().is_some() {\n', '''    if is_begin(kind) && services.acknowledgment_window == tsar::AcknowledgmentWindow::Exceptions {
        return Decision::Fails(Stage::Begun, Status::AcknowledgmentWindowUnsupported);
    }
    if kind.crc().is_some() {
''')

# ---- sender
K, J, U, V, X, Y = ('sender/src/' + f for f in ('checks.rt', 'marks.rt', 'steps.rt', 'turns.rt', 'lib.rt', 'plans.rt'))
Z = 'sender/src/state.rt'
error('s01 a wait of 330,001 ms', PROFILES, 'const SEGMENT_INTERVAL_MS: u64 = 330_000;', 'const SEGMENT_INTERVAL_MS: u64 = 330_001;')
error('s02 the last queued reading', U, 'if sets && deadline.is_none() {', 'if sets && deadline.is_none_or(|d| d == u64::MAX) {')
error('s03 34 where no deadline is set', U, 'if sets && deadline.is_none() {', 'if deadline.is_none() {')
error('s04 41 before 34', U, '''        if sets && deadline.is_none() {
            return Err(SenderError::TimeOverflow);
        }
        let layer3_submissions = self
            .layer3_submissions
            .checked_add(1)
            .ok_or(SenderError::CounterOverflow)?;
''', '''        let layer3_submissions = self
            .layer3_submissions
            .checked_add(1)
            .ok_or(SenderError::CounterOverflow)?;
        if sets && deadline.is_none() {
            return Err(SenderError::TimeOverflow);
        }
''')
error('s05 the number of a token unread', Z, 'token.own == token.number && x.ticket == token.ticket', 'x.ticket == token.ticket')
error('s06 queued at the prepared reading refused', K, 'queued_monotonic_ms < self.prepared_at()', 'queued_monotonic_ms <= self.prepared_at()')
error('s07 a retained offer takes a new ticket', U, 'if self.state.is_prepared() && self.is_at(i) {', 'if self.state.is_prepared() && self.is_at(i) && self.last_ticket == u64::MAX {')
error('s08 tickets end one early', U, 'self.last_ticket.checked_add(1)?', 'self.last_ticket.checked_add(1).filter(|t| *t < u64::MAX)?')
error('s09 63 keeps what was marked', V, '''            .advanced(course, monotonic_ms)
            .ok_or(SenderError::Tickets)?;
        Ok(advanced.cancelled().left())''', '''            .advanced(course, monotonic_ms)
            .unwrap_or(self);
        Ok(advanced.cancelled().left())''')
error('s10 a response at the deadline is late', V, 'if !self.is_late(arrival.reading) {', 'if !self.is_due(arrival.reading) {')
error('s11 no closing advance after a response', V, '        self.react(course, arrival.response, arrival.reading)?\n            .advanced(course, arrival.reading)', '''        let p = self.react(course, arrival.response, arrival.reading)?;
        Some(Progress {
            last_monotonic_ms: arrival.reading,
            ..p
        })''')
error('s12 a shorter map keeps earlier acknowledgments', J, 'map.received.first(map.bit_count).first(self.count())', 'map.received.first(256).first(self.count())')
error('s13 Continuing sends the unreported again', J, 'if timeout {', 'if timeout || map.bit_count < course.count() {')
error('s14 a clear entry past the map', J, 'kept.or(known.and(Words::below(map.bit_count).minus(map.received)))', 'kept.or(known.and(Words::below(256).minus(map.received)))')
error('s15 48 reads bits past the map', J, '            .first(map.bit_count)\n            .minus(self.submitted.first(course.count()))', '            .first(256)\n            .minus(self.submitted.first(course.count()))')
error('s16 49 reads entries past the count', J, '''            .minus(map.received)
            .first(n)
            .is_none()''', '            .minus(map.received)\n            .is_none()')
error('s17 CrcError keeps acknowledgments', U, 'received: Words::none(),', 'received: self.received,')
error('s18 CrcError asks for segments never sent', J, 'self.submitted.first(course.count()).or(self.retry)', 'Words::below(course.count()).or(self.retry)')
error('s19 the last segment is not asked for again', U, 'retry: told.last_if(asks, course),', 'retry: told.retry,')
error('s20 asked for again with a deadline running too', U, 'let asks = timeout || self.deadline_monotonic_ms.is_none();', 'let asks = true;')
error('s21 a due deadline with a submission marks all', U, 'Some(x) => self.retry.with(x.index),', 'Some(_) => self.unreceived(course),')
error('s22 Exceptions completes while Prepared', U, 'course.is_exceptions() && self.state.awaits_response() && ', 'course.is_exceptions() && ')
error('s23 Exceptions never completes', U, 'course.is_exceptions() && self.state.awaits_response() && ', 'course.is_exceptions() && self.state.is_closed() && ')
error('s24 Prohibited sets a deadline for the last segment', U, '!(self.none_but(course, self.index()) && course.is_prohibited())', 'true')
error('s25 accepted at the deadline', V, '''        let advanced = self
            .advanced(course, monotonic_ms)
            .ok_or(SenderError::Tickets)?;
        if !advanced.awaits_word(token) {
            return Ok(advanced.refused(SenderError::StaleSubmission));
        }
        let next''', '''        let advanced = self;
        if !advanced.awaits_word(token) {
            return Ok(advanced.refused(SenderError::StaleSubmission));
        }
        let next''')
error('s26 a late 42 changes nothing', V, '''            return Ok(advanced.refused(SenderError::StaleSubmission));
        }
        let next''', '''            return Err(SenderError::StaleSubmission);
        }
        let next''')
error('s27 a late 44 changes nothing', V, 'return Ok(late.refused(SenderError::ReceiptTime));', 'return Err(SenderError::ReceiptTime);')
error('s28 submitted counts no second time', U, '            .checked_add(1)\n', '            .checked_add(0)\n')
error('s29 a response in AwaitingAccept offers', U, '''        if self.state.awaits_accept() {
            Some(self)
        } else {
            self.prepare(course, monotonic_ms)
        }''', '        self.prepare(course, monotonic_ms)')
error('s30 45 after 31', K, '''        if arrival.peer != terms.peer {
            return Err(SenderError::Peer);
        }
        if arrival.protocol != terms.protocol {
            return Err(SenderError::Service);
        }
''', '''        if arrival.protocol != terms.protocol {
            return Err(SenderError::Service);
        }
        if arrival.peer != terms.peer {
            return Err(SenderError::Peer);
        }
''')
error('s31 46 after 43', K, '''        if course.is_prohibited() {
            return Err(SenderError::ResponsesProhibited);
        }
        if self.none_submitted(course) {
            return Err(SenderError::NotSubmitted);
        }
''', '''        if self.none_submitted(course) {
            return Err(SenderError::NotSubmitted);
        }
        if course.is_prohibited() {
            return Err(SenderError::ResponsesProhibited);
        }
''')
error('s32 62 without the marks past the count', K, '''        if course.mark_past(self.submitted)
            || course.mark_past(self.retry)
            || course.mark_past(self.received)
        {
            return true;
        }
''', '')
error('s33 62 where a closed sender has a deadline', K, 'self.state.is_closed() && self.deadline_monotonic_ms.is_some()', 'false')
error('s34 cancel without the advance', V, '''        let advanced = self
            .advanced(course, monotonic_ms)
            .ok_or(SenderError::Tickets)?;
        Ok(advanced.cancelled().left())''', '        let advanced = self;\n        Ok(advanced.cancelled().left())')
error('s35 EncryptionUnsupported goes on', X, 'Reaction::Fails, // EncryptionUnsupported', 'Reaction::Marks, // EncryptionUnsupported')
error('s36 40 does not read the count', Y, '    p == q\n', '    p == SegmentedMessage { count: p.count, ..q }\n')
error('s37 40 does not read heads past the count', Y, 'same_frozen(checked.plan, f)', 'same_frozen(checked.plan, FrozenMessage { heads: checked.plan.heads, ..f })')
error('s38 submission() in AwaitingAccept', X, 'if !self.progress.state.is_prepared() {', 'if self.progress.state.is_closed() {')
error('s39 the offer of another segment', X, 'self.plan.segment(x.index)?', 'self.plan.segment(0)?')
error('s40 a version below 1 taken', K, 'if self.version < PV1 {', 'if self.version + 1 < PV1 {')
error('s41 a planned plan with junk in its frozen part taken', Y, 'is_planned(p, message) && same_frozen(no_plan(), self.frozen)', 'is_planned(p, message)')
error('s42 a 40 that knows plan_message alone', Y, 'same_plan(q, p) || same_plan(q.evened(), p)', 'same_plan(q, p)')
error('s43 a 40 that knows plan_even alone', Y, 'same_plan(q, p) || same_plan(q.evened(), p)', 'same_plan(q.evened(), p)')
error('s44 40 does not read the later capacity', Y, '    p == q\n', '    p == SegmentedMessage { later_capacity: p.later_capacity, ..q }\n')
error('s45 a 40 that takes a planned plan under Exceptions', Y, '''        p.acknowledgment_window,
        PV1,
''', '''        if p.acknowledgment_window == AcknowledgmentWindow::Exceptions {
            AcknowledgmentWindow::Last
        } else {
            p.acknowledgment_window
        },
        PV1,
''', also=[('        Ok(MessagePlan::Segmented(q)) => same_plan(q, p) || same_plan(q.evened(), p),\n', '''        Ok(MessagePlan::Segmented(planned)) => {
            let q = SegmentedMessage {
                acknowledgment_window: p.acknowledgment_window,
                ..planned
            };
            same_plan(q, p) || same_plan(q.evened(), p)
        }
''')])
error('s46 a 40 that takes no frozen plan under Exceptions', Y, 'checked.answer.is_ok() && same_frozen(checked.plan, f)', 'f.acknowledgment_window != AcknowledgmentWindow::Exceptions && checked.answer.is_ok() && same_frozen(checked.plan, f)')
error('s47 62 where a planned plan is under Exceptions', Y, '                count: p.count,\n', '''                count: if p.acknowledgment_window == AcknowledgmentWindow::Exceptions {
                    0
                } else {
                    p.count
                },
''')

# ---- bench profiles
RH, SH, RL, SL, PL = ('receiver_image/src/heads.rt', 'sender_image/src/heads.rt', 'receiver_image/src/lib.rt', 'sender_image/src/lib.rt', 'plan_image/src/lib.rt')
RC, SC, RA, SA = ('receiver_c/src/lib.rt', 'sender_c/src/lib.rt', 'receiver_answers/src/lib.rt', 'sender_answers/src/lib.rt')
RECEIVER_64 = '''    if !known_profile(terms.profile) {
        return Err(ReceiveError::Profile);
    }
'''
SENDER_64 = '''        if !known_profile(self.profile) {
            return Err(SenderError::Profile);
        }
'''
SENDER_1 = '''        if self.version < PV1 {
            return Err(SenderError::Codec(Error::Version));
        }
'''
UNREAD = '''        let unread = Receiver {
            terms: crate::Terms {
                profile: 1,
                ..self.terms
            },
            ..*self
        };
'''
error('b01 a receiver with 64 before 31', M, RECEIVER_64, '', also=[('    if !terms.protocol.served() {\n', RECEIVER_64 + '    if !terms.protocol.served() {\n')])
error('b02 a receiver with 64 before 30', M, RECEIVER_64, '', also=[('    if terms.peer.refused() {\n', RECEIVER_64 + '    if terms.peer.refused() {\n')])
error('b03 a receiver with 64 behind the codec', M, RECEIVER_64, '', also=[('    begin.validate(0, terms.version)?;\n', '    begin.validate(0, terms.version)?;\n' + RECEIVER_64)])
error('b04 a receiver of any profile', M, RECEIVER_64, '')
error('b05 a sender with 64 before 31', K, SENDER_64, '', also=[('        if !self.protocol.served() {\n', SENDER_64 + '        if !self.protocol.served() {\n')])
error('b06 a sender with 64 behind 40', K, SENDER_64, '', also=[(SENDER_1, SENDER_64 + SENDER_1)])
error('b07 a sender with 64 behind the codec', K, SENDER_64, '', also=[(SENDER_1, SENDER_1 + SENDER_64)])
error('b08 a sender of any profile', K, SENDER_64, '')
error('b09 profile 0 known', PROFILES, 'profile == PROFILE_1 ||', 'profile <= PROFILE_1 ||')
error('b10 profile 3 known', PROFILES, '|| profile == PROFILE_2', '|| profile == PROFILE_2 || profile == 3')
error('b11 profiles from 2 on known', PROFILES, '|| profile == PROFILE_2', '|| PROFILE_2 <= profile')
error('b12 profile 2 unknown', PROFILES, ' || profile == PROFILE_2', '')
error('b13 a receiver with no 62 by the profile', H, '\n            || !known_profile(self.terms.profile)', '')
error('b14 a receiver of profile 2 is impossible', H, '!known_profile(self.terms.profile)', 'self.terms.profile != 1')
error('b15 an advance that does not read the profile', M, TICK_CHECK, UNREAD + '        unread.clock_check(store, monotonic_ms)?;\n' + TICK)
error('b16 a cancel and a release that do not read the profile', M, '''        self.clock_check(store, monotonic_ms)?;
        if !allowed {
''', UNREAD + '''        unread.clock_check(store, monotonic_ms)?;
        if !allowed {
''')
error('b17 a receive that does not read the profile', C, '        if self.is_impossible() {\n', UNREAD + '        if unread.is_impossible() {\n', 1)
error('b18 62 by the profile before 60 and 61', B, '        self.arrival_check(brought, store, output)?;\n', '''        if !link::profiles::known_profile(self.terms.profile) {
            return Err(ReceiveError::ImpossibleState);
        }
        self.arrival_check(brought, store, output)?;
''')
error('b19 33 before 62 by the profile in an advance', M, TICK_CHECK, '''        if crate::STORE_OCTETS <= store.len() && monotonic_ms < self.progress.last_monotonic_ms && !known_profile(self.terms.profile) {
            return Err(ReceiveError::ClockRegression);
        }
''' + TICK_CHECK)
error('b20 a sender with no 62 by the profile', K, ' || !known_profile(outline.profile)', '')
error('b21 a sender of profile 2 is impossible', K, ' || !known_profile(outline.profile)', ' || outline.profile != 1')
error('b22 a lower_failed that does not read the profile', X, '''            self.progress.lower_failed(
                self.token(number, ticket),
                self.outline(),''', '''            self.progress.lower_failed(
                self.token(number, ticket),
                self.plan.outline(1),''')
error('b23 a receive_response that does not read the profile', X, 'receive_response(self.terms, self.outline(), arrival)', 'receive_response(self.terms, self.plan.outline(1), arrival)')
error('b24 33 before 62 by the profile in a sender', K, 'if self.is_impossible(course) || !known_profile(outline.profile) {', 'if self.is_impossible(course) {', also=[('''            return Err(SenderError::ClockRegression);
        }
''', '''            return Err(SenderError::ClockRegression);
        }
        if !known_profile(outline.profile) {
            return Err(SenderError::ImpossibleState);
        }
''')])
error('b25 nothing offered by a sender of neither profile', X, 'if !self.progress.state.is_prepared() {', 'if !self.progress.state.is_prepared() || !link::profiles::known_profile(self.terms.profile) {')
error('b26 a receiver of profile 1 waits as one of 2', PROFILES, 'const REASSEMBLY_MS: u64 = 300_000;', 'const REASSEMBLY_MS: u64 = 120_000;')
error('b27 a receiver of profile 2 waits as one of 1', PROFILES, 'const REASSEMBLY_2_MS: u64 = 120_000;', 'const REASSEMBLY_2_MS: u64 = 300_000;')
error('b28 a sender of profile 2 waits as one of 1', PROFILES, 'const SEGMENT_INTERVAL_2_MS: u64 = 150_000;', 'const SEGMENT_INTERVAL_2_MS: u64 = 330_000;')
error('b29 a wait of 119,999 ms', PROFILES, 'const REASSEMBLY_2_MS: u64 = 120_000;', 'const REASSEMBLY_2_MS: u64 = 119_999;')
error('b30 a wait of 150,001 ms', PROFILES, 'const SEGMENT_INTERVAL_2_MS: u64 = 150_000;', 'const SEGMENT_INTERVAL_2_MS: u64 = 150_001;')
error('b31 the figures of profile 2 exchanged', PROFILES, 'const REASSEMBLY_2_MS: u64 = 120_000;', 'const REASSEMBLY_2_MS: u64 = 150_000;', also=[
    ('const SEGMENT_INTERVAL_2_MS: u64 = 150_000;', 'const SEGMENT_INTERVAL_2_MS: u64 = 120_000;')])
error('b32 a sender that waits as a receiver', V, 'sender_interval(outline.profile)', 'link::profiles::receiver_interval(outline.profile)')
error('b33 a repeat that adds 300,000 whatever the profile', B, 'let interval = receiver_interval(self.terms.profile);', 'let interval = receiver_interval(1);')
error('b34 a held segment that adds 300,000 whatever the profile', B, 'reading + receiver_interval(self.terms.profile)', 'reading + receiver_interval(1)')
error('b35 a receive with the 34 of profile 1', C, 'receiver_interval(self.terms.profile)', 'receiver_interval(1)')
error('b36 a receive with the 34 of profile 2', C, 'receiver_interval(self.terms.profile)', 'receiver_interval(2)')
error('b37 a submitted with the 34 of profile 1', V, '        let counted = self.counted(interval, sets, queued_monotonic_ms)?;\n', '''        self.counted(sender_interval(1), sets, queued_monotonic_ms)?;
        let counted = self.counted(interval, sets, queued_monotonic_ms)?;
''')
error('b38 a submitted that adds 330,000 whatever the profile', V, '        let counted = self.counted(interval, sets, queued_monotonic_ms)?;\n', '''        self.counted(interval, sets, queued_monotonic_ms)?;
        let counted = self.counted(sender_interval(1), sets, queued_monotonic_ms)?;
''')
error('b39 a receiver made under profile 1 whatever is asked for', M, 'empty(terms, ReceiverState::AwaitingBegin', 'empty(Terms { profile: 1, ..terms }, ReceiverState::AwaitingBegin')
error('b40 a sender made under profile 1 whatever is asked for', X, '            version,\n            profile,\n            number,\n        };', '            version,\n            profile: 1,\n            number,\n        };')
error('b41 a canceled receiver has profile 1', M, CLOSE, CLOSE + '        self.terms.profile = 1;\n')
error('b42 a sender that a call leaves under profile 1', X, '''                    progress: t.progress,
                    ..self
''', '''                    progress: t.progress,
                    terms: Terms {
                        profile: 1,
                        ..self.terms
                    },
                    ..self
''')
error('b43 the profile of a receiver not written', RH, 't.version, t.profile]', 't.version, 1]')
error('b44 the profile of a receiver not read', RH, 'profile: l[14],', 'profile: 1,')
error('b45 the profile of a receiver before its version', RH, 't.version, t.profile]', 't.profile, t.version]', also=[
    ('version: l[13],', 'version: l[14],'), ('profile: l[14],', 'profile: l[13],')])
error('b46 the profile of a sender not written', SH, 't.version, t.profile]', 't.version, 1]')
error('b47 the profile of a sender not read', SH, 'profile: l[13],', 'profile: 1,')
error('b48 a receiver of layout version 1', RL, 'const LAYOUT_VERSION: u8 = 2;', 'const LAYOUT_VERSION: u8 = 1;')
error('b49 a sender of layout version 1', SL, 'const LAYOUT_VERSION: u8 = 2;', 'const LAYOUT_VERSION: u8 = 1;')
error('b50 a plan of layout version 2', PL, 'const LAYOUT_VERSION: u8 = 1;', 'const LAYOUT_VERSION: u8 = 2;')
error('b51 a receiver of neither profile is misspelled', RH, 'octets::same(&again, &l[..LENGTHS]).then_some(head)', '(octets::same(&again, &l[..LENGTHS]) && link::profiles::known_profile(head.terms.profile)).then_some(head)')
error('b52 258 for a receiver of profile 3', RC, '    if LAST_PROTOCOL < protocol {\n', '    if LAST_PROTOCOL < protocol || 2 < profile {\n')
error('b53 258 for a sender of profile 3', SC, '    if MAX_PROTOCOL < protocol {\n', '    if MAX_PROTOCOL < protocol || 2 < profile {\n')
error('b54 64 before 258', RC, '    if LAST_PROTOCOL < protocol {\n', '''    if !link::profiles::known_profile(profile) {
        return 16384;
    }
    if LAST_PROTOCOL < protocol {
''')
error('b55 64 of a receiver spelled 62', RA, '256 * 64', '256 * 62')
error('b56 64 of a sender spelled 63', SA, '256 * 64', '256 * 63')
error('b57 version and profile exchanged at the export', RC, '        version,\n        profile,\n', '        profile,\n        version,\n')

# ---- trains, and what the exports give for themselves
W, O = 'train_c/src/lib.rt', 'codec_c/src/codes.rt'
error('t01 a train goes on past a message', W, ' || reception.message.is_some()', '')
error('t02 a train goes on past a response', W, 'reception.response.is_some() || ', '')
error('t03 a train goes on past a failure', W, ' || !state.is_taking()', '')
error('t04 a train stops after every segment', W, '!state.is_taking()', 'state.is_taking()')
error('t05 a train counts the segment that is refused', W, 'received: i as u64,', 'received: i as u64 + 1,')
error('e01 a buffer that is too short is 80', O, 'pub const SHORT: u32 = 65536;', 'pub const SHORT: u32 = 20480;')
error('e02 octets that spell no value are 81', O, 'pub const MISSPELLED: u32 = 65792;', 'pub const MISSPELLED: u32 = 20736;')
error('e03 a number that names no case is 82', O, 'pub const UNNAMED: u32 = 66048;', 'pub const UNNAMED: u32 = 20992;')


def kit():
    """The kit's folder: the page to read first lies in it."""
    return os.path.dirname(subprocess.run(['rt', 'doc'], capture_output=True, text=True, check=True).stdout.strip())


def compiler():
    """The program that compiles without proof."""
    return os.path.join(kit(), 'bin/rattle-cases')


def dependencies():
    """What each crate of crates.txt names."""
    found = {}
    for line in open(os.path.join(REPOSITORY, 'crates.txt')):
        name, _, rest = line.partition(':')
        if rest and not name.startswith('#'):
            found[name.split()[0]] = rest.split()
    return found


def reached(name, uses):
    """The crates below one, each after those that it names."""
    order = []

    def visit(each):
        for below in uses.get(each, []):
            visit(below)
        if each not in order:
            order.append(each)
    for below in uses[name]:
        visit(below)
    return order


def compile_exports(crates, folder):
    """The exports of a copy of crates/ as a shared library, so that the driver needs no new link. Gives what the compiler says against it."""
    home = kit()
    archives = []
    for name in EXPORTS:
        archive = os.path.join(os.path.dirname(folder), f'lib{name}.a')  # not beside the shared library: the driver would be linked with it
        if os.path.exists(archive):
            os.remove(archive)
        words = [compiler(), '--toolchain', os.path.join(home, 'toolchain'), '--staticlib', archive,
                 f'{crates}/{name}/src/lib.rt', '--crate-name', name, '--lib', f'std={home}/rattle/std/src/lib.rt']
        for below in reached(name, dependencies()):
            words += ['--lib', f'{below}={crates}/{below}/src/lib.rt']
        made = subprocess.run(words, capture_output=True, text=True)
        if made.returncode or not os.path.exists(archive):
            return made.stderr or made.stdout
        archives.append(archive)
    library = os.path.join(folder, 'libcatkhize.so')
    made = subprocess.run(['gcc', '-shared', '-o', library, '-Wl,--whole-archive', *archives, '-Wl,--no-whole-archive'],
                          capture_output=True, text=True)
    return made.stderr if made.returncode else None


def apply(crates, file, changes):
    path = os.path.join(crates, file)
    text = open(path).read()
    for old, new, nth in changes:
        at = -1
        for _ in range(nth + 1):
            at = text.find(old, at + 1)
        if at < 0:
            return False
        text = text[:at] + new + text[at + len(old):]
    open(path, 'w').write(text)
    return True


# By the first letter of an error's name: the areas that the driver runs (tools/differ).
AREAS = {'c': 'c', 'p': 'p', 'f': 'p', 'd': 'p', 'n': 'p', 'r': 'r', 's': 's', 't': 't', 'b': 'rts'}
# The driver's features by profile: the original as it is, and with the figures of profile 2.
DRIVERS = {1: [], 2: ['--features', 'profile_2']}


def build(root, library):
    """Builds the driver of each profile."""
    environment = dict(os.environ, CATKHIZE_LIB_DIR=library, CARGO_TARGET_DIR=os.path.join(root, 'target'))
    for profile, features in DRIVERS.items():
        subprocess.run(['cargo', 'build', '--offline', '--release', '--quiet', '-p', 'differ', *features], cwd=HERE, env=environment, check=True)
        shutil.copy(os.path.join(root, 'target/release/differ'), os.path.join(root, f'differ_{profile}'))


def run(root, library, areas, rounds):
    """What the first driver says that finds something, None where none does."""
    for profile in DRIVERS:
        said = run_driver(root, library, profile, areas, rounds)
        if said is not None:
            return f'Profile {profile}: {said}'
    return None


def run_driver(root, library, profile, areas, rounds):
    environment = dict(os.environ, LD_LIBRARY_PATH=library, RUST_BACKTRACE='0')
    driver = os.path.join(root, f'differ_{profile}')
    try:
        ran = subprocess.run([driver, '--rounds', str(rounds), '--shrink', '0', '--areas', areas], env=environment, capture_output=True, text=True, timeout=SECONDS)
    except subprocess.TimeoutExpired:
        return f'it runs longer than {SECONDS} s'
    if ran.returncode == 0:
        return None
    if ran.returncode < 0:
        return f'it stops by signal {-ran.returncode}'
    said = [line for line in ran.stdout.splitlines() if line.startswith(('DISAGREEMENT', 'NEVER SEEN'))]
    return said[0] if said else ran.stderr.strip().splitlines()[-1]


def main():
    wanted = sys.argv[1:]
    if not os.path.exists(compiler()):
        sys.exit(f'{compiler()} is not there: this kit builds no library that is not proved, so no error can be tried')
    root = tempfile.mkdtemp(prefix='strength-')
    library = os.path.join(root, 'library')
    crates = os.path.join(root, 'crates')
    os.mkdir(library)
    source = os.path.join(REPOSITORY, 'crates')
    said = compile_exports(source, library)
    if said:
        sys.exit(f'the exports do not compile: {said}')
    build(root, library)
    said = run(root, library, 'cprts', 1)
    if said:
        sys.exit(f'the exports as they are: {said}')
    found, missed, wrong = 0, [], []
    for name, file, changes in ERRORS:
        if wanted and not name.startswith(tuple(wanted)):
            continue
        shutil.rmtree(crates, ignore_errors=True)
        shutil.copytree(source, crates)
        if not apply(crates, file, changes):
            wrong.append(name)
            print(name, 'DOES NOT FIT THE CODE', flush=True)
            continue
        areas = AREAS.get(name[0], 'cprts')
        said = compile_exports(crates, library)
        if said:
            wrong.append(name)
            print(name, 'DOES NOT COMPILE:', said[:600], flush=True)
            continue
        rounds = 1
        said = run(root, library, areas, rounds)
        if said is None:
            rounds = MORE_ROUNDS
            said = run(root, library, areas, rounds)
        if said is None:
            missed.append(name)
            print(name, 'MISSED', flush=True)
        else:
            found += 1
            print(f'{name}: found in {rounds} round{"s" if rounds > 1 else ""}. {said}', flush=True)
    print(f'{found} found, {len(missed)} missed, {len(wrong)} that do not fit')
    shutil.rmtree(root, ignore_errors=True)
    return 1 if missed or wrong else 0


if __name__ == '__main__':
    sys.exit(main())

<?xml version="1.0" encoding="UTF-8"?>
<!-- Turns the nets of a project of GreatSPN's editor (.PNPRO) into the profile. Times are passed over; inhibitor arcs, colours and
     what else could change the net end it with a message, and nothing is written. -->
<xsl:stylesheet version="1.0" xmlns:xsl="http://www.w3.org/1999/XSL/Transform"
    xmlns="http://www.pnml.org/version-2009/grammar/pnml">

  <xsl:template match="/project">
    <pnml><xsl:apply-templates select="gspn"/></pnml>
  </xsl:template>

  <xsl:template match="gspn">
    <net id="net:{@name}" type="http://www.pnml.org/version-2009/grammar/ptnet"><xsl:apply-templates/></net>
  </xsl:template>

  <xsl:template match="nodes | edges"><xsl:apply-templates/></xsl:template>

  <xsl:template match="place[not(@domain)]">
    <place id="{@name}">
      <xsl:if test="@marking"><initialMarking><text><xsl:value-of select="@marking"/></text></initialMarking></xsl:if>
    </place>
  </xsl:template>

  <xsl:template match="transition[not(@guard)]"><transition id="{@name}"/></xsl:template>

  <xsl:template match="arc[@kind = 'INPUT' or @kind = 'OUTPUT']">
    <arc id="arc:{position()}" source="{@tail}" target="{@head}">
      <xsl:if test="@mult"><inscription><text><xsl:value-of select="@mult"/></text></inscription></xsl:if>
    </arc>
  </xsl:template>

  <xsl:template match="text-box"/>
  <xsl:template match="text()"/>
  <xsl:template match="*" priority="-1">
    <xsl:message terminate="yes"><xsl:value-of select="concat(name(), ' ', @kind, ' ', @name, ' may change the net')"/></xsl:message>
  </xsl:template>
</xsl:stylesheet>
